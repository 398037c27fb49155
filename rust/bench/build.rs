//! Finds the archive of the proved reader, target/native/libprobe.a at the top of the repository (`cfg(probe)`), and passes
//! on whether gamma was found (`cfg(gamma)`).
use std::env;
use std::path::Path;

fn main() {
    let native = Path::new(env!("CARGO_MANIFEST_DIR")).join("../../target/native");
    let archive = native.join("libprobe.a");
    println!("cargo:rustc-check-cfg=cfg(probe)");
    println!("cargo:rustc-check-cfg=cfg(gamma)");
    println!("cargo:rerun-if-changed={}", archive.display());
    if archive.is_file() {
        println!("cargo:rustc-link-search=native={}", native.display());
        println!("cargo:rustc-cfg=probe");
    }
    if env::var_os("DEP_GAMMA_FOUND").is_some() {
        println!("cargo:rustc-cfg=gamma");
    }
}
