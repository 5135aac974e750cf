//! Links the archives that `make archives` writes of the crates named here, from the folder that `YOLLUVEK_LIB` names or
//! else from `target/staticlib` of this repository.

use std::env;
use std::path::{Path, PathBuf};

const ARCHIVES: [&str; 6] = [
    "graph_export",
    "stg_export",
    "engine_export",
    "preview_export",
    "windows_export",
    "weak_export",
];

fn main() {
    println!("cargo::rerun-if-env-changed=YOLLUVEK_LIB");
    let package = Path::new(env!("CARGO_MANIFEST_DIR"));
    let folder = match env::var_os("YOLLUVEK_LIB").map(PathBuf::from) {
        Some(named) => named_folder(&named, called_from(&named).as_deref(), package),
        None => package.join("../../target/staticlib"),
    };
    println!("cargo::rustc-link-search=native={}", folder.display());
    for archive in ARCHIVES {
        let file = folder.join(format!("lib{archive}.a"));
        println!("cargo::rerun-if-changed={}", file.display());
        println!("cargo::rustc-link-lib=static={archive}");
        if !file.exists() {
            let make = format!("`make archives` writes it, or YOLLUVEK_LIB names its folder");
            println!("cargo::warning={} is missing: {make}", file.display());
        }
    }
}

/// The folder that cargo was called in, which a relative name counts from. This script itself runs in the package's.
fn called_from(named: &Path) -> Option<PathBuf> {
    if named.is_relative() {
        println!("cargo::rerun-if-env-changed=PWD");
    }
    env::var_os("PWD").map(PathBuf::from)
}

/// The folder that is named: a relative one in the folder that cargo was called in or, if it isn't there, in the nearest
/// folder around the package that has it, so that a call from a folder below finds it too.
pub fn named_folder(named: &Path, called_from: Option<&Path>, package: &Path) -> PathBuf {
    let bases = called_from.into_iter().chain(package.ancestors());
    let found = bases.map(|base| base.join(named)).find(|folder| folder.is_dir());
    found.unwrap_or_else(|| called_from.unwrap_or(package).join(named))
}
