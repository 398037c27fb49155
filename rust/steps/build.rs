//! Finds the archive of the proved library that counts its steps, target/native/libsteps.a at the top of the repository,
//! and links it (`cfg(archive)`). Without it the crate does not build, and says how to make it.
use std::path::Path;

fn main() {
    let native = Path::new(env!("CARGO_MANIFEST_DIR")).join("../../target/native");
    println!("cargo:rustc-check-cfg=cfg(archive)");
    for file in ["libsteps.a", "steps.loops"] {
        println!("cargo:rerun-if-changed={}", native.join(file).display());
    }
    if native.join("libsteps.a").is_file() {
        println!("cargo:rustc-link-search=native={}", native.display());
        println!("cargo:rustc-cfg=archive");
    }
}
