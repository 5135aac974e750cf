//! Which folder `YOLLUVEK_LIB` names.

// its main is for cargo
#[allow(dead_code)]
#[path = "../build.rs"]
mod build;

use std::fs;
use std::path::{Path, PathBuf};

/// Folders of this test, removed at its end: repo/rust/binding, repo/lib, other/lib.
struct Folders(PathBuf);

impl Folders {
    fn new(name: &str) -> Folders {
        let root = Path::new(env!("CARGO_TARGET_TMPDIR")).join(name);
        for folder in ["repo/rust/binding", "repo/lib", "other/lib"] {
            fs::create_dir_all(root.join(folder)).expect("a folder of this test's own");
        }
        Folders(root)
    }

    fn named(&self, name: &str, called_from: Option<&str>) -> PathBuf {
        let called_from = called_from.map(|folder| self.0.join(folder));
        let package = self.0.join("repo/rust/binding");
        build::named_folder(Path::new(name), called_from.as_deref(), &package)
    }
}

impl Drop for Folders {
    fn drop(&mut self) {
        // what is left over is in the folder of the build
        let _left = fs::remove_dir_all(&self.0);
    }
}

#[test]
fn a_relative_name_counts_from_the_folder_of_the_call() {
    let folders = Folders::new("relative");
    let root = &folders.0;
    assert_eq!(folders.named("lib", Some("other")), root.join("other/lib"));
    assert_eq!(folders.named("lib", Some("repo")), root.join("repo/lib"));
    assert_eq!(
        folders.named("../lib", Some("other/lib")),
        root.join("other/lib/../lib")
    );
}

#[test]
fn else_from_the_nearest_folder_around_the_package() {
    let folders = Folders::new("around");
    let root = &folders.0;
    assert_eq!(folders.named("lib", Some("repo/rust")), root.join("repo/lib"));
    assert_eq!(folders.named("lib", None), root.join("repo/lib"));
}

#[test]
fn an_absolute_name_is_itself_and_a_missing_one_is_told_where_it_was_looked_for() {
    let folders = Folders::new("absolute");
    let root = &folders.0;
    let absolute = root.join("other/lib");
    let name = absolute.to_str().expect("the name of the build's folder");
    assert_eq!(folders.named(name, Some("repo")), absolute);
    let nowhere = "no-folder-of-this-name";
    assert_eq!(folders.named(nowhere, Some("repo")), root.join("repo").join(nowhere));
    let package = root.join("repo/rust/binding");
    assert_eq!(folders.named(nowhere, None), package.join(nowhere));
}
