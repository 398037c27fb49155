//! Finds the archive of the proved reader, target/native/libprobe.a at the top of the repository. With it the tests
//! that call the reader are compiled (`cfg(probe)`); without it they say how to make it, and the rest still builds.
use std::path::Path;

fn main() {
    let native = Path::new(env!("CARGO_MANIFEST_DIR")).join("../../target/native");
    let archive = native.join("libprobe.a");
    println!("cargo:rustc-check-cfg=cfg(probe)");
    println!("cargo:rerun-if-changed={}", archive.display());
    if archive.is_file() {
        println!("cargo:rustc-link-search=native={}", native.display());
        println!("cargo:rustc-cfg=probe");
    }
}
