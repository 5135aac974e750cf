//! The stored files of the program `trials` are what the generator and the model write, and they try what they should.

mod common;

use common::assert_stored;
use engine_model::text::{lines, Trial};
use engine_model::trials;

/// What the program has room for: the bytes of the input, the numbers of a line, a lent list.
const INPUT: usize = 786_432;
const NUMBERS: usize = 24_576;
const LENT: usize = 8_200;

#[test]
fn the_cases_are_the_generated_ones() {
    assert_stored("trials", "stdin", lines(&trials::all(), Trial::case).as_bytes());
}

#[test]
fn the_answers_are_the_model_s() {
    assert_stored("trials", "stdout", lines(&trials::all(), Trial::answer).as_bytes());
}

#[test]
fn the_program_has_room_for_every_case() {
    let trials = trials::all();
    assert!(lines(&trials, Trial::case).len() < INPUT);
    for trial in trials {
        if let Trial::Graph(graph) = &trial {
            assert!(graph.lent.iter().all(|&length| length <= LENT));
        }
        assert!(trial.case().split(' ').count() <= NUMBERS);
    }
}

/// Every answer that the calls can give is there often.
#[test]
fn every_number_is_tried() {
    let answers = lines(&trials::all(), Trial::answer);
    let count = |words: &str| answers.matches(words).count();
    for number in 0..=5 {
        assert!(count(&format!("check {number} ")) >= 100, "check {number}");
        assert!(count(&format!("link {number} ")) >= 100, "link {number}");
    }
    for answer in ["0 0 : ", "1 0 : -", "2 0 : -"] {
        assert!(count(answer) >= 10, "lookup {answer}");
    }
    assert!(answers.lines().filter(|line| line.contains("3 4294967295 : -")).count() >= 100);
}

/// The trials that the linked code is held to can be drawn.
#[test]
fn further_trials_are_drawn() {
    assert!((100..104).all(|seed| trials::further(seed, 2_000).len() == 2_000));
}
