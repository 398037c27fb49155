//! Finds gamma's source and writes the module files that it does not come with. The variable GAMMA_SRC names the folder
//! that holds gamma's `src/`; where it is not set, ../shared/docs/src beside the repository is looked for. gamma is
//! compiled unchanged from where it stands, and never copied. Where it is found, `cfg(gamma)` is set here, and
//! DEP_GAMMA_FOUND for the build scripts of the crates that rest on this one.
use std::fmt::Write;
use std::path::{Path, PathBuf};
use std::{env, fs};

/// A folder of gamma, its files, and what its module file hands on.
const MODULES: [(&str, &[&str], &str); 4] = [
    ("graph", &["graph", "default_graph"], "pub use self::{default_graph::DefaultGraph, error::Error, graph::Graph};"),
    ("traversal", &["depth_first", "step"], "pub use self::{depth_first::DepthFirst, step::Step};"),
    ("selection", &["components"], "pub use self::components::components;"),
    (
        "matching",
        &["blossom", "forest", "greedy", "marker", "maximum_matching", "pairing"],
        "pub use self::{greedy::greedy, maximum_matching::maximum_matching, pairing::Pairing};",
    ),
];

/// The module `graph::error`, which gamma's files name and which did not come with them.
const ERROR: &str = "pub mod error {
    #[derive(Debug, PartialEq)]
    pub enum Error { UnknownId(usize), DuplicateId(usize), DuplicateEdge(usize, usize), MissingEdge(usize, usize) }
}";

fn main() {
    println!("cargo:rustc-check-cfg=cfg(gamma)");
    println!("cargo:rerun-if-env-changed=GAMMA_SRC");
    let named = env::var_os("GAMMA_SRC").filter(|name| !name.is_empty()).map(PathBuf::from);
    let beside = Path::new(env!("CARGO_MANIFEST_DIR")).join("../../../shared/docs/src");
    let folder = named.clone().unwrap_or(beside).join("src");
    println!("cargo:rerun-if-changed={}", folder.display());
    if !folder.join("matching/maximum_matching.rs").is_file() {
        assert!(named.is_none(), "GAMMA_SRC is set, and gamma is not in {}", folder.display());
        return;
    }
    let folder = folder.canonicalize().expect("the place of gamma");
    let out = Path::new(&env::var_os("OUT_DIR").expect("OUT_DIR")).join("gamma.rs");
    fs::write(out, glue(&folder)).expect("gamma.rs");
    println!("cargo:rustc-cfg=gamma");
    println!("cargo:found=1");
}

/// The module files, each written in place.
fn glue(folder: &Path) -> String {
    let mut text = String::new();
    for (module, files, uses) in MODULES {
        // what the compiler would warn of in gamma's files is not ours to change
        writeln!(text, "#[allow(warnings)]\npub mod {module} {{").unwrap();
        for file in files {
            let path = folder.join(module).join(format!("{file}.rs"));
            println!("cargo:rerun-if-changed={}", path.display());
            writeln!(text, "#[path = {path:?}]\nmod {file};").unwrap();
        }
        if module == "graph" {
            writeln!(text, "{ERROR}").unwrap();
        }
        writeln!(text, "{uses}\n}}").unwrap();
    }
    text
}
