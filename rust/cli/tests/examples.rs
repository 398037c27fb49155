//! The layouts under examples/: what is printed is what is committed beside them, and a plain reading of the table
//! finds nothing wrong with it.
mod support;
use std::fs;
use support::{example, hold, run, Folder, Plain, EXAMPLES};

fn committed(file: &str) -> String {
    fs::read_to_string(example(file)).unwrap()
}

#[test]
fn plan_of_an_example_differs() {
    let folder = Folder::new("example-plans");
    for name in EXAMPLES {
        let out = folder.path("out");
        let ran = run(&["plan", &example(&format!("{name}.csv")), "--out", &out]);
        assert_eq!((ran.status, ran.err.as_str()), (0, ""), "{name}");
        assert_eq!(ran.out, committed(&format!("{name}.sessions.txt")), "{name}");
        assert_eq!(folder.read("out"), committed(&format!("{name}.plan")), "{name}");
    }
}

#[test]
fn proof_sheet_of_an_example_differs() {
    let folder = Folder::new("example-proofs");
    for name in EXAMPLES {
        let svg = folder.path("svg");
        let ran = run(&["explain", &example(&format!("{name}.csv")), "--svg", &svg]);
        assert_eq!((ran.status, ran.err.as_str()), (0, ""), "{name}");
        assert_eq!(ran.out, committed(&format!("{name}.proof.txt")), "{name}");
        assert_eq!(folder.read("svg"), committed(&format!("{name}.svg")), "{name}");
    }
}

#[test]
fn committed_plan_is_not_accepted() {
    for name in EXAMPLES {
        let (table, plan) = (example(&format!("{name}.csv")), example(&format!("{name}.plan")));
        let ran = run(&["check", &table, "--plan", &plan]);
        assert_eq!(ran.status, 0, "{name}: {ran:?}");
        assert!(ran.out.starts_with("accepted: "), "{name}: {ran:?}");
        let explained = run(&["explain", &table, "--plan", &plan]);
        assert_eq!(explained.out, committed(&format!("{name}.proof.txt")), "{name}");
    }
}

#[test]
fn fewer_sessions_are_possible() {
    for (name, fewest) in EXAMPLES.into_iter().zip([6, 7, 12]) {
        let table = Plain::of_example(name);
        assert_eq!(hold(&table, &committed(&format!("{name}.sessions.txt"))), fewest, "{name}");
        assert_eq!(table.fewest(), fewest, "{name}");
    }
}
