//! The trials, from fixed seeds: examples of document 01, every small table, the limits, damage of every kind, several
//! defects at once, larger graphs, and lookups.

pub(crate) mod damage;
mod limits;
mod lookups;
pub mod random;
mod small;

use crate::draw::Draw;
use crate::text::{GraphTrial, Trial};

/// Every trial, in the order of the files.
pub fn all() -> Vec<Trial> {
    [
        small::examples(),
        small::every_table(),
        small::every_graph_of_three(),
        limits::sizes(),
        limits::largest(),
        damage::one_each(),
        damage::several_at_once(),
        damage::every_mixture(),
        random::accepted(),
        random::cyclic(),
        lookups::small(),
        lookups::damaged(),
        lookups::largest(),
        unreadable(),
    ]
    .concat()
}

/// Further trials, which are not stored: graphs and lookups with a few defects each.
pub fn further(seed: u64, count: usize) -> Vec<Trial> {
    let mut draw = Draw::new(seed);
    let mut next = |i: usize| match i % 4 {
        0 => lookups::several(&mut draw),
        _ => Trial::Graph(damage::several(&mut draw)),
    };
    (0..count).map(&mut next).collect()
}

/// Lines that are no case: the program answers each, and goes on.
fn unreadable() -> Vec<Trial> {
    let lines = [
        "",
        " ",
        "x",
        "1024",
        "x 1024 8192 0 1 0 1 0 0 0",
        "g",
        "g ",
        "g 1024 8192 0 1 0 1 0",
        "g 1024 8192 0 1 0 1 0 0",
        "g 1024 8192 0 1 0 1 0 0 0 0",
        "g 1024 8192 0 1 0 1 0 0 0 ",
        "g 1024 8192 0 1 0 1 0 0  0",
        "g  1024 8192 0 1 0 1 0 0 0",
        "g\t1024 8192 0 1 0 1 0 0 0",
        "g1024 8192 0 1 0 1 0 0 0",
        "g 1024 8192 0 1 0 1 0 0 -0",
        "g 1024 8192 0 1 0 1 0 0 0\r",
        "g 1024 8192 0 1 0 1 0 0 4294967296",
        "g 1024 8192 0 1 0 1 0 0 99999999999999999999999999",
        "g 1024 8192 4294967295 4294967295 4294967295 1 0 0 0",
        "g 1024 8192 0 1 0 8201 0 0 0",
        "g 1024 8192 0 1 0 1 4294967295 0 0",
        "g 1024 8192 0 1 0 1 0 8201 0",
        "n",
        "n 0 1 0 1",
        "n 0 1 0 1 0 0",
        "n 0 1 0 1 0 0 0 1",
        "n 4294967295 4294967295 4294967295 4294967295 4294967295",
    ];
    let mut list = vec![note("lines that are no case")];
    list.extend(lines.map(|line| Trial::Unreadable(String::from(line))));
    list
}

fn note(words: &str) -> Trial {
    Trial::Note(String::from(words))
}

/// A note with the graphs that it speaks of.
fn noted(words: &str, trials: impl IntoIterator<Item = GraphTrial>) -> Vec<Trial> {
    let mut list = vec![note(words)];
    list.extend(trials.into_iter().map(Trial::Graph));
    list
}
