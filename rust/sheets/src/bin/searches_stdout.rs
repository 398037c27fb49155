//! Prints what the program `searches` has to print, from the plain model of a search alone. In rust/:
//!
//!     cargo run --release --offline -p sheets --bin searches-stdout >../crates/searches/stdout
fn main() {
    print!("{}", sheets::searches::stdout());
}
