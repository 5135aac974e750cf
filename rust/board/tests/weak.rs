//! A lesson on a weak job, by keys.

mod common;

use common::{folder, frames, BOARD};
use std::process::{Command, Output};

fn board(arguments: &[&str]) -> Output {
    let mut board = Command::new(BOARD);
    board
        .args(arguments)
        .current_dir(folder())
        .output()
        .expect("the board runs")
}

const DIAMOND: [&str; 4] = ["--weak", "../../../examples/diamond.stg", "2", "4"];

/// A seam of three copies, for which its lane's ring has two slots.
const SEAM: [&str; 4] = ["--weak", "seam.stg", "2", "2"];

fn told(arguments: &[&str]) -> String {
    let output = board(arguments);
    assert!(output.status.success(), "{arguments:?}");
    assert_eq!(output.stderr, b"", "{arguments:?}");
    String::from_utf8(output.stdout).expect("frames are text")
}

fn played() -> String {
    told(&[&DIAMOND[..], &["--keys", "weak.keys"]].concat())
}

fn refused() -> String {
    told(&[&SEAM[..], &["--keys", "weak-11.keys"]].concat())
}

#[test]
fn the_transcripts_are_the_stored_ones() {
    let stored = |name: &str| std::fs::read_to_string(folder().join(name)).expect("a transcript");
    assert_eq!(played(), stored("weak.transcript"));
    assert_eq!(refused(), stored("weak-11.transcript"));
}

/// Where `--weak` stands doesn't matter, but it stands once.
#[test]
fn weak_anywhere() {
    let words = ["../../../examples/diamond.stg", "2", "4", "--keys", "weak.keys"];
    for place in 0..=words.len() {
        let mut arguments = words.to_vec();
        arguments.insert(place, "--weak");
        assert_eq!(told(&arguments), played(), "{arguments:?}");
        arguments.push("--weak");
        let twice = board(&arguments);
        assert!(!twice.status.success());
        assert!(String::from_utf8_lossy(&twice.stderr).starts_with("usage: "));
    }
}

/// The third copy finds the ring of its lane full, and the board looks as it did; with room it follows the others.
#[test]
fn a_later_copy_without_room() {
    let told = refused();
    let frames = frames(&told);
    let [.., (_, before), ("F4", _), ("0", _), ("Enter", panel), ("Escape", after), _, (_, follows), ("q", _)] =
        frames.as_slice()
    else {
        panic!("it ends otherwise: {told}");
    };
    assert_eq!(before, after);
    let panel = panel.split_whitespace().collect::<Vec<_>>().join(" ");
    assert!(panel.contains("REFUSED 11, detail 5"), "{panel}");
    assert!(
        panel.contains("it is fixed to worker 0, whose ring that the worker fills is full"),
        "{panel}"
    );
    assert!(
        panel.contains("let the worker that the task is fixed to fetch, then release again."),
        "{panel}"
    );
    assert!(panel.contains(" 0 of "), "{panel}");
    assert!(panel.contains("0: 5·2 5·3 full"), "{panel}");
    assert!(
        follows.contains("Task 5 is fixed to lane 0: the copy follows the first one."),
        "{follows}"
    );
}

/// The seam has two copies, both in one lane, and its lane's load is that of the tasks fixed to it.
#[test]
fn the_seam_blends_neighbour_by_neighbour() {
    let told = played();
    let frames = frames(&told);
    let shown = |keys: &str| &frames.iter().find(|(found, _)| *found == keys).expect(keys).1;
    assert!(shown("F4 1 Enter 1 Enter")
        .contains("It is the first copy of task 3 (weight 0), which is fixed to lane 1 now."));
    let follows = shown("F4 0 Enter 1 Enter");
    assert!(follows.contains("Task 3 is fixed to lane 1: the copy follows the first one."));
    assert!(follows.contains("0: 3·1 | 1: 3·2"), "{follows}");
    assert!(shown("F5 Escape").contains("recorded 4 of 5"));
    let (_, last) = &frames[frames.len() - 2];
    assert!(
        last.contains("accepted 19 of 19   recorded 5 of 5   finished"),
        "{last}"
    );
    assert!(
        last.contains("record   0 by 0   2·0 by 1   1·0 by 0   3·2 by 1   3·1 by 1\n"),
        "{last}"
    );
}

/// A page for a browser is of plain jobs alone.
#[test]
fn no_page_of_a_weak_job() {
    let output = board(&[&DIAMOND[..], &["--html", "/dev/null"]].concat());
    assert!(!output.status.success());
    assert!(String::from_utf8_lossy(&output.stderr).starts_with("usage: "));
}
