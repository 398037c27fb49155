//! The declaration by which the tests call the archive says what the exported function says.
use sheets::declarations::{declared, exported};
use std::{fs, path::Path};

#[test]
fn declaration_differs_from_export() {
    let file = Path::new(env!("CARGO_MANIFEST_DIR")).join("../../crates/drive_c/src/lib.rt");
    let exported = exported(&fs::read_to_string(file).expect("crates/drive_c/src/lib.rt"));
    assert_eq!(exported.len(), 1, "the exported functions: {exported:?}");
    assert!(!exported[0].contains('&'), "a form that this test does not read: {exported:?}");
    assert_eq!(declared(include_str!("drive/mod.rs")), exported);
}
