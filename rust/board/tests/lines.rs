//! What can't be played ends with one clear line on standard error and status 1.

mod common;

use common::{folder, BOARD};
use std::fs;
use std::path::Path;
use std::process::{Command, Stdio};

/// The line that a run with these arguments ends with.
fn line(arguments: &[&str]) -> String {
    let output = Command::new(BOARD)
        .args(arguments)
        .current_dir(folder())
        // makes its file in /proc too long, which has no length there
        .env("LONG", "x".repeat(65_536))
        .stdin(Stdio::null())
        .output()
        .expect("the board runs");
    let told = String::from_utf8(output.stderr).expect("text");
    assert_eq!(output.status.code(), Some(1), "{told}");
    assert_eq!(output.stdout, b"", "{told}");
    assert_eq!(told.matches('\n').count(), 1, "{told}");
    told.trim_end().to_owned()
}

fn scratch(name: &str, text: &str) -> String {
    let file = Path::new(env!("CARGO_TARGET_TMPDIR")).join(name);
    fs::write(&file, text).expect("a scratch file");
    file.to_string_lossy().into_owned()
}

const DIAMOND: &str = "../../../examples/diamond.stg";

#[test]
fn wrong_arguments() {
    for arguments in [
        &[][..],
        &[DIAMOND],
        &[DIAMOND, "2", "4", "--keys"],
        &[DIAMOND, "2", "4", "--what", "x"],
    ] {
        assert!(line(arguments).starts_with("usage: "));
    }
    assert_eq!(line(&[DIAMOND, "two", "4"]), "P has to be a number, and is \"two\"");
    assert_eq!(line(&[DIAMOND, "2", "-4"]), "K has to be a number, and is \"-4\"");
    assert!(line(&["nothing.stg", "2", "4"]).starts_with("nothing.stg: "));
    assert!(line(&[".", "2", "4"]).starts_with(".: "));
}

#[test]
fn refused_texts() {
    let short = scratch("short.stg", "2\n0 0 0\n");
    assert!(line(&[&short, "2", "4"]).starts_with(&format!("{short}: refused 13, detail 3: ")));
    assert!(line(&[DIAMOND, "17", "4"]).contains(": refused 2, detail 0: "));
    assert!(line(&["strips.stg", "6", "2"]).contains(": refused 6, detail 13: "));
    let cycle = scratch("cycle.stg", "1\n0 0 0\n1 5 1 2\n2 0 1 1\n");
    assert!(line(&[&cycle, "2", "4"]).contains(": refused 5, detail 1: "));
}

/// How long a file is that is too long; of what isn't a file, or says less of itself, only that it is. It may be no text.
#[test]
fn too_long_texts() {
    let to_do =
        "To do: leave out comments, blank lines, spare spaces and zeros. If it is a job's text, and too long without \
                 them, the job is too large, and has to be split.";
    let long = scratch("long.stg", &"# a comment\n".repeat(12_685)[..152_214]);
    let told = line(&[&long, "2", "4"]);
    let meaning = "it has 152214 bytes, more than the 65536 that a text may have";
    assert_eq!(told, format!("{long}: refused 2, detail 0: {meaning}. {to_do}"));
    let meaning = "it has more than the 65536 bytes that a text may have";
    for file in ["/dev/zero", "/proc/self/environ"] {
        let told = line(&[file, "2", "4"]);
        assert_eq!(told, format!("{file}: refused 2, detail 0: {meaning}. {to_do}"));
    }
}

/// What to do is about what is wrong: a number of workers, a wrong n, a predecessor by its number.
#[test]
fn what_to_do() {
    assert!(line(&[DIAMOND, "17", "4"]).ends_with(". To do: choose from 1 to 16 workers."));
    assert!(line(&[DIAMOND, "2", "1"]).ends_with(". To do: choose from 2 to 64 slots."));
    let large = scratch("large.stg", "1023\n");
    let by_n = ". To do: correct the line with n if it is wrong; else the job is too large, and has to be split.";
    assert!(line(&[&large, "2", "4"]).ends_with(by_n));
    let wrong = scratch("wrong.stg", "4\n0 0 0\n1 5 1 0\n2 3 1 0\n3 0 2 1 2\n");
    let told = line(&[&wrong, "2", "4"]);
    assert!(told.contains(": refused 13, detail 6: the text ends too early: n is 4, so 6 task lines have to follow, "));
    assert!(told.contains("there are 4 task lines; with n 2 it would be whole. To do: correct the line with n"));
    let stray = scratch("stray.stg", "1\n0 0 0\n1 5 1 7\n2 0 1 1\n");
    let told = line(&[&stray, "2", "4"]);
    assert!(told.contains(": refused 3, detail 1: task 1 has predecessor 7, which doesn't exist: there are 3 tasks. "));
}

#[test]
fn no_terminal() {
    assert!(line(&[DIAMOND, "2", "4"]).starts_with("this is no terminal: "));
}

#[test]
fn wrong_keys() {
    let keys = scratch("wrong.keys", "# a comment\nF4\n12 Entre\n");
    let told = line(&[DIAMOND, "2", "4", "--keys", &keys]);
    assert!(
        told.starts_with(&format!("{keys}, line 3: \"Entre\" names no key")),
        "{told}"
    );
    assert!(line(&[DIAMOND, "2", "4", "--keys", "nothing.keys"]).starts_with("nothing.keys: "));
}

#[test]
fn a_page_of_too_many_states() {
    let page = Path::new(env!("CARGO_TARGET_TMPDIR")).join("strips.html");
    let told = line(&["strips.stg", "13", "2", "--html", &page.to_string_lossy()]);
    let many = "strips.stg: with P 13 and K 2 there are more than 3000 states, too many for a page: ";
    assert!(told.starts_with(many), "{told}");
    assert!(!page.exists());
}
