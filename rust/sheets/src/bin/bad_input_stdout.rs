//! Prints what the program `bad_input` has to print, from the plain reading alone. In rust/:
//!
//!     cargo run --release --offline --bin bad-input-stdout >../crates/bad_input/stdout
fn main() {
    print!("{}", sheets::bad_input::stdout());
}
