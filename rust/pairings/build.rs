//! Finds the archive of the proved operations, target/native/libdrive.a at the top of the repository (`cfg(drive)`), and
//! passes on whether gamma was found (`cfg(gamma)`). Without gamma all else still builds and runs.
use std::env;
use std::path::Path;

fn main() {
    let native = Path::new(env!("CARGO_MANIFEST_DIR")).join("../../target/native");
    let archive = native.join("libdrive.a");
    println!("cargo:rustc-check-cfg=cfg(drive)");
    println!("cargo:rustc-check-cfg=cfg(gamma)");
    println!("cargo:rerun-if-changed={}", archive.display());
    if archive.is_file() {
        println!("cargo:rustc-link-search=native={}", native.display());
        println!("cargo:rustc-cfg=drive");
    }
    if env::var_os("DEP_GAMMA_FOUND").is_some() {
        println!("cargo:rustc-cfg=gamma");
    }
}
