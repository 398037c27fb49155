//! Writes the recorded sample of gamma's answers, or what the program `replay_pairing` has to print of it. In rust/:
//!
//!     cargo run --release --offline --bin pairing-sample >../crates/replay_pairing/data/sample
//!     cargo run --release --offline --bin pairing-sample stdout >../crates/replay_pairing/stdout
//!
//! The first asks gamma itself, whose source GAMMA_SRC names; the second counts the lines of the sample that is there.
use std::{env, fs, path::Path};

fn main() {
    if env::args().nth(1).as_deref() == Some("stdout") {
        let file = Path::new(env!("CARGO_MANIFEST_DIR")).join("../../crates/replay_pairing/data/sample");
        let lines = pairings::sample::read(&fs::read_to_string(file).expect("crates/replay_pairing/data/sample"));
        print!("{}", pairings::sample::stdout(&lines));
        return;
    }
    record();
}

#[cfg(gamma)]
fn record() {
    print!("{}", pairings::sample::write(&pairings::sample::make()));
}

#[cfg(not(gamma))]
fn record() {
    eprintln!("{}", pairings::LEFT_OUT);
    std::process::exit(1);
}
