//! The stored files of a program of the repository.

use std::fs;
use std::path::Path;

pub fn stored(program: &str, name: &str) -> Vec<u8> {
    let folder = Path::new(env!("CARGO_MANIFEST_DIR")).join("../crates").join(program);
    fs::read(folder.join(name)).expect("a stored file")
}

/// The program's stored file is what was made, else the first line that differs is shown.
pub fn assert_stored(program: &str, name: &str, made: &[u8]) {
    let stored = stored(program, name);
    let lines = stored
        .split(|&byte| byte == b'\n')
        .zip(made.split(|&byte| byte == b'\n'));
    let shown = |line: &[u8]| line[..line.len().min(200)].escape_ascii().to_string();
    for (i, (stored, made)) in lines.enumerate() {
        let number = i + 1;
        assert!(
            stored == made,
            "{name}, line {number}: {} is not {}",
            shown(stored),
            shown(made)
        );
    }
    assert_eq!(stored.len(), made.len(), "{name} is longer or shorter");
}
