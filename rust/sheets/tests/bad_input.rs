//! The file that the gate holds the program `bad_input` to is what the plain reading says.
use std::{fs, path::Path};

#[test]
fn expected_answers_are_not_the_plain_readings() {
    let file = Path::new(env!("CARGO_MANIFEST_DIR")).join("../../crates/bad_input/stdout");
    let committed = fs::read_to_string(&file).expect("crates/bad_input/stdout");
    let said = sheets::bad_input::stdout();
    for (committed, said) in committed.lines().zip(said.lines()) {
        assert_eq!(committed, said, "a line of crates/bad_input/stdout, and what it should be");
    }
    assert_eq!(committed, said);
}

#[test]
fn two_cases_have_one_label() {
    let mut labels: Vec<String> = sheets::bad_input::cases().into_iter().map(|case| case.label).collect();
    let all = labels.len();
    labels.sort();
    labels.dedup();
    assert_eq!(labels.len(), all);
}
