//! The stored files of the program `desk_trials` are what the generator and the model write, and they try what they should.

mod common;

use common::assert_stored;
use engine_model::frames::{texts, Frame};
use engine_model::texts::desk;

/// What the program has room for.
const INPUT: usize = 786_432;
const PRINTED: usize = 32_768;

fn made(part: impl Fn(&Frame) -> Vec<u8>) -> Vec<u8> {
    desk::all().iter().flat_map(part).collect()
}

#[test]
fn the_cases_are_the_generated_ones() {
    assert_stored("desk_trials", "stdin", &made(Frame::desk_case));
}

#[test]
fn the_answers_are_the_model_s() {
    assert_stored("desk_trials", "stdout", &made(Frame::desk_answer));
}

#[test]
fn the_program_has_room_for_every_case() {
    assert!(made(Frame::desk_case).len() < INPUT);
    assert!(desk::all().iter().all(|frame| frame.desk_answer().len() <= PRINTED));
    assert!(texts(&desk::all()).filter(|trial| trial.text.len() > 65_536).count() == 1);
}

/// Each refusal of the reader and of begin is there, and runs of all sizes.
#[test]
fn every_answer_is_tried() {
    let answers = String::from_utf8(made(Frame::desk_answer)).expect("words");
    let count = |words: &str| answers.lines().filter(|line| line.starts_with(words)).count();
    for (words, least) in [
        ("refused 2 0", 2),
        ("refused 3 1", 2),
        ("refused 4 2", 1),
        ("refused 5 1", 2),
        ("refused 6 9", 2),
        ("refused 13 1", 2),
        ("refused 13 2", 2),
        ("refused 13 3", 1),
        ("refused 13 4", 1),
        ("refused 13 6", 1),
        ("2 6", 2),
        ("2 7", 1),
        ("4 16", 2),
        ("8 24", 1),
        ("9 34", 1),
        ("1024 11264", 1),
    ] {
        assert!(count(words) >= least, "{words}: {}", count(words));
    }
}
