//! The proved weak calls, called through their exports, beside the model: the drawn lists of calls, runs of one graph, damaged
//! words, the promises of whole runs, and the runs that costs are compared on. Guard words stand around each list.

use engine_model::beside::{ANSWERS, STEP_ANSWERS};
use engine_model::damages;
use engine_model::measured;
use engine_model::proved_weak::{self, PROVED};
use engine_model::runs::{next_weak_case, weak_runs_of_one_graph};
use engine_model::weak::{Memory, MODEL};
use engine_model::weak_beside::{compare, compare_all, Side};
use engine_model::weak_demand3::play;

const SIDE: Side = Side {
    beside: MODEL,
    begin: proved_weak::begin,
    step: proved_weak::step,
};

/// A part of the seeds, which the tests below share out among themselves to run side by side.
fn drawn(first: u64, count: u64) {
    let cases = (first..first + count).map(|seed| (seed, next_weak_case(seed)));
    compare_all(cases, &SIDE, &ANSWERS, 200);
}

#[test]
fn drawn_cases() {
    drawn(0, 6_400);
}

#[test]
fn further_drawn_cases() {
    drawn(100_000, 6_400);
}

#[test]
fn runs_of_one_graph_each() {
    for seed in 0..200 {
        for case in weak_runs_of_one_graph(seed, 40, 4) {
            compare(&case, &SIDE, 0xfeed_beef).unwrap_or_else(|parted| panic!("seed {seed}: {parted}"));
        }
    }
}

#[test]
fn every_word_damaged() {
    compare_all((0..).zip(damages::cases_of::<Memory>()), &SIDE, &STEP_ANSWERS, 20);
}

/// What is promised of one run, and of any two finished ones of one graph, by the proved calls alone.
#[test]
fn runs_keep_the_promises() {
    for seed in 0..200 {
        let cases = weak_runs_of_one_graph(seed, 12, 3);
        let play = |case| play(&PROVED, case).unwrap_or_else(|wrong| panic!("seed {seed}: {wrong}"));
        let finished: Vec<_> = cases.iter().flat_map(play).collect();
        for pair in finished.windows(2) {
            let joined = pair[0].copies.join(&pair[0].order, &pair[1].order);
            assert!(joined.is_ok(), "seed {seed}: {joined:?}");
        }
    }
}

/// All are accepted: begin and the 4E + 3R steps, with 16 roots.
#[test]
fn the_measured_runs() {
    for (tasks, workers) in measured::RUNS {
        let case = measured::weak_case(tasks, workers);
        let counts =
            compare(&case, &SIDE, 0).unwrap_or_else(|parted| panic!("{tasks} tasks, {workers} workers: {parted}"));
        assert_eq!(counts[0], 1 + 4 * measured::EDGES_PER_TASK * tasks + 3 * 16);
    }
}
