//! The recorded sample: it is what gamma says, the proved operations say the same, and what the program
//! `replay_pairing` has to print is counted from it.
mod drive;

use drive::{answer, State};
use pairings::operation::{numbers, Operation};
use pairings::sample::{self, Line};
use std::{fs, path::Path};

fn file(name: &str) -> String {
    let file = Path::new(env!("CARGO_MANIFEST_DIR")).join("../../crates/replay_pairing").join(name);
    fs::read_to_string(&file).unwrap_or_else(|_| panic!("{}", file.display()))
}

#[cfg(gamma)]
#[test]
fn sample_is_not_what_gamma_says() {
    let lines = sample::make();
    assert!(file("data/sample") == sample::write(&lines), "crates/replay_pairing/data/sample is not what gamma says");
    println!("recorded sample made anew: {} lines, the same", lines.len());
}

#[test]
fn expected_counts_are_not_the_samples() {
    assert_eq!(file("stdout"), sample::stdout(&sample::read(&file("data/sample"))));
}

/// The number with which an operation is refused at which gamma panics.
fn refusal(line: &Line) -> u64 {
    match (line.panicked, &line.operation) {
        (false, _) => 0,
        (true, Operation::Augment(_)) => 13,
        (true, _) => 16,
    }
}

#[test]
fn proved_operations_differ_from_the_sample() {
    let lines = sample::read(&file("data/sample"));
    let mut state = State::fresh();
    let mut answers = vec![0; 2000];
    for (k, line) in lines.iter().enumerate() {
        let list = [line.operation.clone(), Operation::Order, Operation::Edges];
        assert_eq!(state.drive(&numbers(&list), &mut answers), 3);
        let (said, behind) = answer(&answers, line.operation.code());
        let (order, behind) = answer(behind, 0);
        let (edges, _) = answer(behind, 3);
        let pairs: Vec<(u64, u64)> = line.pairs.iter().map(|&(lower, upper)| (lower.into(), upper.into())).collect();
        let ours = (said.reply.0, said.value, order.value, edges.pairs);
        assert_eq!(ours, (refusal(line), line.value.into(), line.order.into(), pairs), "line {} of the sample", k + 2);
    }
    println!("recorded sample: {} operations, no difference", lines.len());
}
