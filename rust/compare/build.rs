//! Passes on whether gamma was found (`cfg(gamma)`). Without it the recorded answers are compared all the same.
fn main() {
    println!("cargo:rustc-check-cfg=cfg(gamma)");
    if std::env::var_os("DEP_GAMMA_FOUND").is_some() {
        println!("cargo:rustc-cfg=gamma");
    }
}
