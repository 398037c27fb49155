//! gamma 0.9.0, the Rust original, compiled unchanged (`graph` and `matching`, where its source was found), and what is
//! asked of it in a run: `asked` catches a panic, and `steps` makes its search for a maximum matching search by search.
#[cfg(gamma)]
include!(concat!(env!("OUT_DIR"), "/gamma.rs"));

#[cfg(gamma)]
pub mod steps;

use std::panic::{catch_unwind, set_hook, take_hook, AssertUnwindSafe};
use std::{any::Any, cell::Cell, sync::Once};

/// What is printed in place of a comparison with gamma, where gamma's source was not found.
pub const LEFT_OUT: &str = "LEFT OUT: gamma's source was not found; GAMMA_SRC names the folder that holds its src/";

thread_local! {
    static QUIET: Cell<bool> = const { Cell::new(false) };
}

/// What a call answers, or nothing where it panics.
pub fn asked<T>(call: impl FnOnce() -> T) -> Option<T> {
    caught(call).ok()
}

/// What a call answers, or that with which it panics. Here a panic is an answer, so its message is not printed.
pub fn caught<T>(call: impl FnOnce() -> T) -> Result<T, Box<dyn Any + Send>> {
    static HOOK: Once = Once::new();
    HOOK.call_once(|| {
        let print = take_hook();
        set_hook(Box::new(move |panic| {
            if !QUIET.get() {
                print(panic)
            }
        }));
    });
    QUIET.set(true);
    let answer = catch_unwind(AssertUnwindSafe(call));
    QUIET.set(false);
    answer
}
