//! The built desk program, run on whole texts and held to the model: what its `main` reads and writes is not proved.

use engine_model::desk::output;
use engine_model::frames::texts;
use engine_model::texts::all;
use std::fs;
use std::io::Write;
use std::path::{Path, PathBuf};
use std::process::{Command, Stdio};
use std::thread;

fn root() -> PathBuf {
    Path::new(env!("CARGO_MANIFEST_DIR")).join("..")
}

/// What the program prints when the text comes on standard input.
fn printed(text: &[u8]) -> Vec<u8> {
    let program = root().join("crates/desk/out/desk");
    let mut child = Command::new(&program)
        .stdin(Stdio::piped())
        .stdout(Stdio::piped())
        .spawn()
        .unwrap_or_else(|error| panic!("{}: {error}", program.display()));
    let mut input = child.stdin.take().expect("standard input is piped");
    let text = text.to_vec();
    // the program stops reading at 65,537 bytes, so the rest of a longer text may find the pipe closed
    let writer = thread::spawn(move || drop(input.write_all(&text)));
    let result = child.wait_with_output().expect("the program ends");
    writer.join().expect("the text was written");
    assert!(result.status.success(), "{}", result.status);
    result.stdout
}

fn assert_as_the_model(text: &[u8]) {
    let answered = String::from_utf8_lossy(&printed(text)).into_owned();
    let expected = String::from_utf8_lossy(&output(text)).into_owned();
    let start = String::from_utf8_lossy(&text[..text.len().min(80)]);
    assert_eq!(answered, expected, "{} bytes: {start:?}", text.len());
}

/// The diamond, and a comment line that brings the text to this many bytes.
fn diamond_of(bytes: usize) -> Vec<u8> {
    let mut text = b"2\n0 0 0\n1 5 1 0\n2 3 1 0\n3 0 2 1 2\n#".to_vec();
    text.resize(bytes, b'x');
    text
}

/// The program started by the shell with these redirections; what it printed and what it told.
fn redirected(how: &str) -> (String, String) {
    let program = root().join("crates/desk/out/desk");
    let line = format!("\"$0\" {how}");
    let result = Command::new("sh")
        .arg("-c")
        .arg(line)
        .arg(program)
        .output()
        .expect("a shell");
    assert!(result.status.success(), "{how}: {}", result.status);
    let text = |bytes| String::from_utf8(bytes).expect("a text");
    (text(result.stdout), text(result.stderr))
}

/// Nothing is judged where the input can't be read: closed, or a folder.
#[test]
fn an_input_that_cannot_be_read() {
    let told = (String::new(), String::from("desk: standard input can't be read\n"));
    assert_eq!(redirected("<&-"), told);
    assert_eq!(redirected("</"), told);
}

#[test]
fn an_output_that_cannot_be_written() {
    let (_, told) = redirected("</dev/null >/dev/full");
    assert_eq!(told, "desk: standard output can't be written\n");
    assert_eq!(
        redirected("</dev/null"),
        (String::from("refused 13 1\n"), String::new())
    );
}

#[test]
fn the_examples() {
    let entries = fs::read_dir(root().join("examples")).expect("the folder is there");
    for entry in entries {
        let text = fs::read(entry.expect("an entry").path()).expect("an example");
        assert_as_the_model(&text);
    }
}

/// "text over 65,536 bytes" is 2: it is refused, and not cut to a text that could be read.
#[test]
fn a_text_of_the_greatest_length_and_longer_ones() {
    assert!(printed(&diamond_of(65_536)).starts_with(b"4 16\n"));
    for bytes in [65_537, 65_538, 70_000, 200_000] {
        assert_eq!(printed(&diamond_of(bytes)), b"refused 2 0\n", "{bytes} bytes");
    }
}

#[test]
fn stored_texts() {
    let frames = all();
    let some: Vec<_> = texts(&frames).step_by(17).collect();
    assert!(some.len() > 200);
    for trial in some {
        assert_as_the_model(&trial.text);
    }
}
