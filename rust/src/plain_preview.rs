//! The preview as one would write it in plain Rust: what is beyond its limits is refused first of all, and everything else is the
//! plain engine's own call.

use crate::engine::Engine;
use crate::memory::{Outcome, Step};
use crate::model::{refused, Refusal};
use crate::plain_engine::{self, Lent};
use std::ops::RangeInclusive;

const TASKS: RangeInclusive<usize> = 0..=128;
const EDGES: RangeInclusive<usize> = 0..=512;
const WORKERS: RangeInclusive<usize> = 1..=4;
const SLOTS: RangeInclusive<usize> = 2..=8;

/// The preview of this file, lent the lists of a `Memory`.
pub const PLAIN: Engine = Engine {
    name: "plain, preview",
    begin: |memory, p, k| begin(&mut Lent::of(memory), p, k),
    step: |memory, p, k, worker, which| step(&mut Lent::of(memory), p, k, worker, which),
};

/// "Beyond its limits the preview gives 2, in the same place."
fn judge(lent: &Lent, p: usize, k: usize) -> Result<(), Refusal> {
    let (n, e) = (lent.weights.len(), lent.preds.len());
    if TASKS.contains(&n) && EDGES.contains(&e) && WORKERS.contains(&p) && SLOTS.contains(&k) {
        Ok(())
    } else {
        refused(2, 0)
    }
}

pub fn begin(lent: &mut Lent, p: usize, k: usize) -> Result<(), Refusal> {
    judge(lent, p, k)?;
    plain_engine::begin(lent, p, k)
}

pub fn step(lent: &mut Lent, p: usize, k: usize, worker: u32, step: Step) -> Result<Outcome, Refusal> {
    judge(lent, p, k)?;
    plain_engine::step(lent, p, k, worker, step)
}
