//! The proved writer, called through its export, beside the model; its texts are read back by the proved reader and the model's.

#[path = "common/saves.rs"]
mod saves;

use engine_model::proved;
use engine_model::saves::Side;

const PROVED: Side = Side {
    write: proved::write,
    read: proved::read,
};

#[test]
fn drawn_graphs() {
    saves::drawn_graphs(&PROVED, 0, 4_000);
}

#[test]
fn further_drawn_graphs() {
    saves::drawn_graphs(&PROVED, 100_000, 4_000);
}

#[test]
fn every_mixture_of_defects() {
    saves::every_mixture_of_defects(&PROVED);
}

#[test]
fn limits() {
    saves::limits(&PROVED);
}

#[test]
fn the_examples() {
    saves::the_examples(&PROVED);
}

#[test]
fn texts_that_are_read() {
    saves::texts_that_are_read(&PROVED, 320, 4_000);
}

#[test]
fn the_measured_graphs() {
    saves::the_measured_graphs(&PROVED);
}
