//! With the feature `linked`, links the archives that `make archives` writes of the crates named here.

use std::env;
use std::path::Path;

const ARCHIVES: [&str; 7] = [
    "graph_export",
    "stg_export",
    "engine_export",
    "preview_export",
    "windows_export",
    "weak_export",
    "ref_export",
];

fn main() {
    if env::var_os("CARGO_FEATURE_LINKED").is_none() {
        return;
    }
    let root = env::var("CARGO_MANIFEST_DIR").expect("cargo names the package's folder");
    let folder = Path::new(&root).join("../target/staticlib");
    println!("cargo::rustc-link-search=native={}", folder.display());
    for archive in ARCHIVES {
        println!(
            "cargo::rerun-if-changed={}",
            folder.join(format!("lib{archive}.a")).display()
        );
        println!("cargo::rustc-link-lib=static={archive}");
    }
}
