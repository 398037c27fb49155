//! The proved calls beside gamma. In rust/:
//!
//!     cargo run --release --offline --bin compare              # as .ci/run does, about a minute
//!     cargo run --release --offline --bin compare long 7       # at length, from seed 7
//!     cargo run --release --offline --bin compare record       # writes crates/replay/data/ anew
//!
//! The first difference ends it, with its input as rows and a status that is not 0. Where gamma's source was not found, the
//! first says so and ends well, as the recorded answers are compared by the tests.
use std::process::ExitCode;

fn main() -> ExitCode {
    let words: Vec<String> = std::env::args().skip(1).collect();
    let words: Vec<&str> = words.iter().map(String::as_str).collect();
    match run(&words) {
        Ok(()) => ExitCode::SUCCESS,
        Err(what) => {
            println!("{what}");
            ExitCode::FAILURE
        }
    }
}

#[cfg(gamma)]
fn run(words: &[&str]) -> Result<(), String> {
    use compare::plan::Plan;
    /// The seed where none is named.
    const SEED: u64 = 7;
    let compared = match words {
        [] => Plan::gate(SEED).run(),
        ["long"] => Plan::long(SEED).run(),
        ["long", seed] => Plan::long(seed.parse().map_err(|_| format!("no seed: {seed}"))?).run(),
        ["record"] => return compare::recorded::record(),
        _ => return Err("usage: compare, compare long [SEED], compare record".to_string()),
    };
    compared.map_err(|what| format!("DIFFERENCE: {what}"))
}

#[cfg(not(gamma))]
fn run(words: &[&str]) -> Result<(), String> {
    match words {
        [] => {
            println!("the runs beside gamma: {}", gamma::LEFT_OUT);
            Ok(())
        }
        _ => Err(gamma::LEFT_OUT.to_string()),
    }
}
