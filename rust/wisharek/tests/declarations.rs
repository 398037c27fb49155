//! The declarations by which the wrapper calls the archive say what the exported functions say, and what the page of the
//! boundary says of them.
use sheets::declarations::{declared, documented, exported};
use std::{fs, path::Path};

fn read(file: &str) -> String {
    let path = Path::new(env!("CARGO_MANIFEST_DIR")).join("../..").join(file);
    fs::read_to_string(path).unwrap_or_else(|error| panic!("{file}: {error}"))
}

fn declarations() -> Vec<String> {
    let declared = declared(include_str!("../src/raw.rs"));
    for line in &declared {
        assert!(line.starts_with("fn wisharek_") && !line.contains('&'), "a form that this test does not read: {line}");
    }
    declared
}

#[test]
fn declaration_differs_from_export() {
    let exported = exported(&read("crates/wisharek_c/src/lib.rt"));
    assert_eq!(declarations(), exported);
    assert_eq!(exported.len(), 4, "the exported functions: {exported:?}");
}

#[test]
fn declaration_differs_from_the_boundary() {
    let documented = documented(&read("docs/BOUNDARY.md"));
    for line in declarations() {
        assert!(documented.contains(&line), "{line} is not among {documented:#?}");
    }
}

#[test]
fn unsafe_code_stands_outside_of_raw() {
    for file in ["rust/wisharek/src/lib.rs", "rust/wisharek/src/refusal.rs"] {
        let text = read(file).replace("unsafe_code", "");
        assert!(!text.contains("unsafe") && !text.contains("extern"), "{file}");
    }
}
