//! Finds the archive of the proved library, target/native/libwisharek.a at the top of the repository, and links it
//! (`cfg(archive)`). Without it the crate does not build, and says how to make it.
use std::path::Path;

fn main() {
    let native = Path::new(env!("CARGO_MANIFEST_DIR")).join("../../target/native");
    let archive = native.join("libwisharek.a");
    println!("cargo:rustc-check-cfg=cfg(archive)");
    println!("cargo:rerun-if-changed={}", archive.display());
    if archive.is_file() {
        println!("cargo:rustc-link-search=native={}", native.display());
        println!("cargo:rustc-link-lib=static=wisharek");
        println!("cargo:rustc-cfg=archive");
    }
}
