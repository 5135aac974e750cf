//! The plain engine beside the model: the drawn lists of calls, and the runs that costs are compared on.

use engine_model::beside::{compare, compare_all, Side, ANSWERS, STEP_ANSWERS};
use engine_model::damages;
use engine_model::engine::MODEL;
use engine_model::measured;
use engine_model::plain_engine;
use engine_model::runs::next_case;

const PLAIN: Side = Side {
    beside: MODEL,
    begin: plain_engine::begin,
    step: plain_engine::step,
};

#[test]
fn the_drawn_cases() {
    let cases = (200_000..203_200).map(|seed| (seed, next_case(seed)));
    compare_all(cases, &PLAIN, &ANSWERS, 100);
}

#[test]
fn every_word_damaged() {
    compare_all((0..).zip(damages::cases()), &PLAIN, &STEP_ANSWERS, 20);
}

#[test]
fn the_measured_runs() {
    for (tasks, workers) in measured::RUNS {
        let case = measured::case(tasks, workers);
        let counts =
            compare(&case, &PLAIN, 0).unwrap_or_else(|parted| panic!("{tasks} tasks, {workers} workers: {parted}"));
        // all are accepted: begin and the 3N + E steps
        assert_eq!(counts[0], 1 + 3 * tasks + measured::EDGES_PER_TASK * tasks);
    }
}
