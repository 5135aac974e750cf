//! The plain weak calls beside the model's: the drawn lists of calls, damaged words, and the runs that costs are compared on.

use engine_model::beside::{ANSWERS, STEP_ANSWERS};
use engine_model::damages;
use engine_model::measured;
use engine_model::plain_weak;
use engine_model::plain_weak_export;
use engine_model::runs::next_weak_case;
use engine_model::weak::{Memory, MODEL};
use engine_model::weak_beside::{compare, compare_all, Side};

const PLAIN: Side = Side {
    beside: MODEL,
    begin: plain_weak::begin,
    step: plain_weak::step,
};

/// The same behind the interface of the exports.
const EXPORTED: Side = Side {
    beside: MODEL,
    begin: plain_weak_export::begin,
    step: plain_weak_export::step,
};

#[test]
fn the_drawn_cases() {
    let cases = (300_000..301_600).map(|seed| (seed, next_weak_case(seed)));
    compare_all(cases, &PLAIN, &ANSWERS, 50);
}

#[test]
fn drawn_cases_behind_the_exports() {
    let cases = (310_000..310_640).map(|seed| (seed, next_weak_case(seed)));
    compare_all(cases, &EXPORTED, &ANSWERS, 20);
}

/// One case in three, so that the four steps take turns; the linked test has all of them.
#[test]
fn every_word_damaged() {
    let cases = (0..).zip(damages::cases_of::<Memory>());
    compare_all(cases.step_by(3), &PLAIN, &STEP_ANSWERS, 10);
}

/// All are accepted: begin and the 4E + 3R steps, with 16 roots.
#[test]
fn the_measured_runs() {
    for (tasks, workers) in measured::RUNS {
        let case = measured::weak_case(tasks, workers);
        let counts =
            compare(&case, &PLAIN, 0).unwrap_or_else(|parted| panic!("{tasks} tasks, {workers} workers: {parted}"));
        let edges = measured::EDGES_PER_TASK * tasks;
        assert_eq!(counts[0], 1 + 4 * edges + 3 * 16);
    }
}
