//! The proved load windows, called through their export, beside the model.

#[path = "common/loads.rs"]
mod loads;

use engine_model::proved;

#[test]
fn drawn_lists() {
    loads::drawn_lists(proved::windows, 0, 2_000);
}

#[test]
fn further_drawn_lists() {
    loads::drawn_lists(proved::windows, 100_000, 2_000);
}

#[test]
fn honest_runs() {
    loads::honest_runs(proved::windows, 0, 1_600);
}

#[test]
fn limits() {
    loads::limits(proved::windows);
}

#[test]
fn the_measured_record() {
    loads::the_measured_record(proved::windows);
}
