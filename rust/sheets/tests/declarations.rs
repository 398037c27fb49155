//! The declarations by which the tests call the archive of the reader say what the exported functions say.
use sheets::declarations::{declared, exported};
use std::{fs, path::Path};

#[test]
fn declaration_differs_from_export() {
    let file = Path::new(env!("CARGO_MANIFEST_DIR")).join("../../crates/probe_c/src/lib.rt");
    let exported = exported(&fs::read_to_string(file).expect("crates/probe_c/src/lib.rt"));
    let declared = declared(include_str!("probe/mod.rs"));
    assert_eq!(exported.len(), 3, "the exported functions: {exported:?}");
    assert_eq!(declared, exported);
    for line in declared {
        assert!(line.starts_with("fn probe_") && !line.contains('&'), "a form that this test does not read: {line}");
    }
}
