//! The proved engine, called through its exports, beside the model: the drawn lists of calls, runs of one graph, and the
//! runs that costs are compared on.

use engine_model::beside::{compare, compare_all, Side, ANSWERS, STEP_ANSWERS};
use engine_model::cyclic::SHAPES;
use engine_model::damages;
use engine_model::engine::MODEL;
use engine_model::measured;
use engine_model::proved_engine;
use engine_model::runs::{next_case, runs_of_one_graph, Call, Case};

const PROVED: Side = Side {
    beside: MODEL,
    begin: proved_engine::begin,
    step: proved_engine::step,
};

/// A part of the seeds, which the tests below share out among themselves to run side by side.
fn drawn(first: u64, count: u64) {
    let cases = (first..first + count).map(|seed| (seed, next_case(seed)));
    compare_all(cases, &PROVED, &ANSWERS, 200);
}

#[test]
fn drawn_cases() {
    drawn(0, 6_400);
}

#[test]
fn further_drawn_cases() {
    drawn(100_000, 6_400);
}

#[test]
fn runs_of_one_graph_each() {
    for seed in 0..200 {
        for case in runs_of_one_graph(seed, 40, 4) {
            compare(&case, &PROVED, 0xfeed_beef).unwrap_or_else(|parted| panic!("seed {seed}: {parted}"));
        }
    }
}

#[test]
fn every_word_damaged() {
    compare_all((0..).zip(damages::cases()), &PROVED, &STEP_ANSWERS, 20);
}

#[test]
fn the_measured_runs() {
    for (tasks, workers) in measured::RUNS {
        let case = measured::case(tasks, workers);
        let counts =
            compare(&case, &PROVED, 0).unwrap_or_else(|parted| panic!("{tasks} tasks, {workers} workers: {parted}"));
        assert_eq!(counts[0], 1 + 3 * tasks + measured::EDGES_PER_TASK * tasks);
    }
}

#[test]
fn begins_refused_for_a_cycle() {
    let (p, k) = (4, measured::SLOTS);
    for (name, shape) in SHAPES {
        for tasks in [4, 64, 256, 1_024] {
            let memory = measured::looped_memory(shape, tasks, p);
            let calls = vec![Call::Begin { p, k }];
            let case = Case { memory, p, k, calls };
            let counts = compare(&case, &PROVED, 3).unwrap_or_else(|parted| panic!("{name}, {tasks} tasks: {parted}"));
            assert_eq!(counts[5], 1, "{name}, {tasks} tasks");
        }
    }
}
