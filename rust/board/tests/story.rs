//! "Press F4, choose lane twelve, press Assign, read the refusal, press Escape: the board must look as it did before F4."

mod common;

use common::{folder, frames, Story, BOARD, STORIES};
use std::process::Command;

fn played(story: Story) -> String {
    let keys = format!("{}.keys", story.keys);
    let output = Command::new(BOARD)
        .args(story.arguments())
        .args(["--keys", &keys])
        .current_dir(folder())
        .output()
        .expect("the board runs");
    assert!(output.status.success(), "{story:?}");
    assert_eq!(output.stderr, b"", "{story:?}");
    String::from_utf8(output.stdout).expect("frames are text")
}

#[test]
fn transcripts_are_the_stored_ones() {
    for story in STORIES {
        assert_eq!(played(story), story.stored(), "{story:?}");
    }
}

#[test]
fn the_board_looks_as_it_did() {
    for story in STORIES {
        let told = played(story);
        let frames = frames(&told);
        let [.., (_, before), ("F4", dialog), ("12", chosen), ("Enter", panel), ("Escape", after), ("q", _)] =
            frames.as_slice()
        else {
            panic!("{story:?} ends otherwise");
        };
        assert_eq!(before.as_bytes(), after.as_bytes(), "{story:?}");
        // on the way it looked different
        assert!(
            [dialog, chosen, panel].iter().all(|frame| *frame != before),
            "{story:?}"
        );
        assert!(panel.contains(story.refused), "{panel}");
        let differing = format!(" 0 of {} words differ from before the call\n", story.words());
        assert!(panel.contains(&differing), "{panel}");
    }
}

/// In the story of 11 every ring that lane 12 fills is full, and each lane was foreseen: the answers in the keys were worked
/// out from the rule apart from the board.
#[test]
fn every_ring_of_lane_12_is_full() {
    let told = STORIES[2].stored();
    let frames = frames(&told);
    let (_, panel) = frames.iter().rfind(|(keys, _)| *keys == "Enter").expect("an answer");
    let full = panel
        .lines()
        .filter(|line| line.contains("12: ") && line.ends_with(" full"));
    assert_eq!(full.count(), 13);
    assert!(panel.contains("foreseen 26 of 26"));
}
