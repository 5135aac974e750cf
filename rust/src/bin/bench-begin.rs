//! What an accepted begin takes by the clock, the proved one and the plain one in turn behind the same interface:
//! `bench-begin WORKERS`.
//! It prints the median of the rounds' ratios with the quartiles, and the medians in nanoseconds.

use engine_model::measured::{memory, SLOTS};
use engine_model::memory::Memory;
use engine_model::model::Refusal;
use engine_model::plain_engine::Lent;
use engine_model::{plain_export, proved_engine};
use std::env;
use std::time::Instant;

const TASKS: usize = 1_024;
const ROUNDS: usize = 201;
/// Begins of each kind in a round.
const BEGINS: u32 = 20;

type Begin = fn(&mut Lent, usize, usize) -> Result<(), Refusal>;

/// Nanoseconds for one begin, the mean of a round's.
fn timed(begin: Begin, memory: &mut Memory, workers: usize) -> f64 {
    let begun = Instant::now();
    for _ in 0..BEGINS {
        assert_eq!(begin(&mut Lent::of(memory), workers, SLOTS), Ok(()));
    }
    begun.elapsed().as_secs_f64() * 1e9 / f64::from(BEGINS)
}

/// The quartiles.
fn quartiles(mut values: Vec<f64>) -> [f64; 3] {
    values.sort_by(f64::total_cmp);
    [1, 2, 3].map(|part| values[part * (values.len() - 1) / 4])
}

fn main() {
    let workers = env::args().nth(1).and_then(|word| word.parse().ok()).expect("a number of workers");
    let mut lent = memory(TASKS, workers);
    let (mut proved, mut plain) = (Vec::new(), Vec::new());
    for round in 0..ROUNDS {
        // each kind comes first in half of the rounds
        if round % 2 == 0 {
            proved.push(timed(proved_engine::begin, &mut lent, workers));
            plain.push(timed(plain_export::begin, &mut lent, workers));
        } else {
            plain.push(timed(plain_export::begin, &mut lent, workers));
            proved.push(timed(proved_engine::begin, &mut lent, workers));
        }
    }
    let [low, middle, high] = quartiles(proved.iter().zip(&plain).map(|(proved, plain)| proved / plain).collect());
    println!(
        "| {workers} | {:.0} | {:.0} | {middle:.2} ({low:.2} to {high:.2}) |",
        quartiles(proved)[1],
        quartiles(plain)[1]
    );
}
