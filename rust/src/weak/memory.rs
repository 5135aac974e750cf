//! The lent memory of a weak job: document 01's lists with what No. 6 of document 02 changes in them.

use super::MODEL;
use crate::engine::Engine;
use crate::memory::{List, Lists, END_WORDS};

/// Words of a copy: "copies (task, predecessor), two words each".
pub const COPY_WORDS: usize = 2;

/// Words of a worker's row, with a held copy in place of the held task.
pub const ROW_WORDS: usize = 7;

/// The places of a worker's row: phase, held task, held predecessor, ring pointer, buffer read place, buffer write place, cursor.
pub const PHASE: usize = 0;
pub const HELD_TASK: usize = 1;
pub const HELD_PRED: usize = 2;
pub const POINTER: usize = 3;
pub const READ: usize = 4;
pub const WRITE: usize = 5;
pub const CURSOR: usize = 6;

/// Words of an entry: "Records have three words per copy (task, predecessor, worker)".
pub const ENTRY_WORDS: usize = 3;

/// The place of R among the run words: "A third run word, of weak jobs alone, keeps R". The first two are document 01's.
pub const ROOTS: usize = 2;

/// How many run words there are.
pub const RUN_WORDS: usize = 3;

/// "(N lent words, 65,535 before, else below P or damaged)": no worker is fixed yet.
pub const UNFIXED: u32 = 65_535;

/// One field for each list that a weak call is lent, in their order.
#[derive(Clone, Debug, PartialEq, Eq, Hash, Default)]
pub struct Memory {
    pub weights: Vec<u32>,
    pub pred_starts: Vec<u32>,
    pub preds: Vec<u32>,
    pub succ_starts: Vec<u32>,
    pub succs: Vec<u32>,
    pub degrees: Vec<u32>,
    /// "fixes the task's worker (N lent words […])"
    pub fixed: Vec<u32>,
    /// "Its rings and hands hold copies (task, predecessor)": P·P·K of them.
    pub rings: Vec<[u32; COPY_WORDS]>,
    /// Head, tail and count of each ring, P·P triples.
    pub ends: Vec<u32>,
    pub counters: Vec<i32>,
    pub buffers: Vec<u32>,
    /// "Records have three words per copy (task, predecessor, worker), length 3(E + N), E + R copies used".
    pub executed: Vec<u32>,
    /// Entries recorded, steps accepted, R.
    pub run: Vec<u32>,
    pub rows: Vec<[u32; ROW_WORDS]>,
}

impl Memory {
    /// R as the run words have it, damaged or not.
    fn roots(&self) -> usize {
        self.run.get(ROOTS).map_or(0, |&roots| roots as usize)
    }

    /// "E + R copies"
    pub fn all_copies(&self, roots: usize) -> usize {
        self.e() + roots
    }

    /// "With R roots a run has 4E + 3R accepted steps."
    pub fn all_steps(&self, roots: usize) -> usize {
        4 * self.e() + 3 * roots
    }

    fn named(&self, list: List) -> &dyn Elements {
        match list {
            List::Weights => &self.weights,
            List::PredStarts => &self.pred_starts,
            List::Preds => &self.preds,
            List::SuccStarts => &self.succ_starts,
            List::Succs => &self.succs,
            List::Degrees => &self.degrees,
            List::Fixed => &self.fixed,
            List::Rings => &self.rings,
            List::Ends => &self.ends,
            List::Counters => &self.counters,
            List::Buffers => &self.buffers,
            List::Executed => &self.executed,
            List::Run => &self.run,
            List::Rows => &self.rows,
        }
    }

    fn named_mut(&mut self, list: List) -> &mut dyn Elements {
        match list {
            List::Weights => &mut self.weights,
            List::PredStarts => &mut self.pred_starts,
            List::Preds => &mut self.preds,
            List::SuccStarts => &mut self.succ_starts,
            List::Succs => &mut self.succs,
            List::Degrees => &mut self.degrees,
            List::Fixed => &mut self.fixed,
            List::Rings => &mut self.rings,
            List::Ends => &mut self.ends,
            List::Counters => &mut self.counters,
            List::Buffers => &mut self.buffers,
            List::Executed => &mut self.executed,
            List::Run => &mut self.run,
            List::Rows => &mut self.rows,
        }
    }
}

impl Lists for Memory {
    type Outcome = super::Outcome;

    const MODEL: Engine<Memory> = MODEL;

    const LISTS: &'static [List] = &[
        List::Weights,
        List::PredStarts,
        List::Preds,
        List::SuccStarts,
        List::Succs,
        List::Degrees,
        List::Fixed,
        List::Rings,
        List::Ends,
        List::Counters,
        List::Buffers,
        List::Executed,
        List::Run,
        List::Rows,
    ];

    fn sized(weights: Vec<u32>, pred_starts: Vec<u32>, preds: Vec<u32>, p: usize, k: usize, fill: u32) -> Memory {
        let (n, e) = (weights.len(), preds.len());
        Memory {
            weights,
            pred_starts,
            preds,
            succ_starts: vec![fill; n + 1],
            succs: vec![fill; e],
            degrees: vec![fill; n],
            fixed: vec![fill; n],
            rings: vec![[fill; COPY_WORDS]; p * p * k],
            ends: vec![fill; END_WORDS * p * p],
            counters: vec![fill as i32; p * p],
            buffers: vec![fill; p * n],
            executed: vec![fill; ENTRY_WORDS * (e + n)],
            run: vec![fill; RUN_WORDS],
            rows: vec![[fill; ROW_WORDS]; p],
        }
    }

    fn weights(&self) -> &[u32] {
        &self.weights
    }

    fn preds(&self) -> &[u32] {
        &self.preds
    }

    fn ends(&mut self) -> &mut [u32] {
        &mut self.ends
    }

    /// "12, the finish and the limits of the entries and accepted words follow these counts": E + R and 4E + 3R, where R isn't
    /// damaged.
    fn counts(&self) -> [usize; 2] {
        let roots = self.roots().min(self.n());
        [self.all_copies(roots), self.all_steps(roots)]
    }

    fn length(&self, list: List) -> usize {
        self.named(list).length()
    }

    fn words(&self, list: List) -> usize {
        self.named(list).words()
    }

    fn lend(&mut self, list: List, length: usize, fill: u32) {
        self.named_mut(list).lend(length, fill);
    }

    fn replace(&mut self, list: List, place: usize, word: u32) -> Option<u32> {
        self.named_mut(list).replace(place, word)
    }
}

/// A list of words, signed words or records.
trait Elements {
    fn length(&self) -> usize;
    fn words(&self) -> usize;
    fn lend(&mut self, length: usize, fill: u32);
    fn replace(&mut self, place: usize, word: u32) -> Option<u32>;
}

impl Elements for Vec<u32> {
    fn length(&self) -> usize {
        self.len()
    }

    fn words(&self) -> usize {
        self.len()
    }

    fn lend(&mut self, length: usize, fill: u32) {
        self.resize(length, fill);
    }

    fn replace(&mut self, place: usize, word: u32) -> Option<u32> {
        self.get_mut(place).map(|found| std::mem::replace(found, word))
    }
}

impl Elements for Vec<i32> {
    fn length(&self) -> usize {
        self.len()
    }

    fn words(&self) -> usize {
        self.len()
    }

    fn lend(&mut self, length: usize, fill: u32) {
        self.resize(length, fill as i32);
    }

    fn replace(&mut self, place: usize, word: u32) -> Option<u32> {
        self.get_mut(place)
            .map(|found| std::mem::replace(found, word as i32) as u32)
    }
}

impl<const WIDTH: usize> Elements for Vec<[u32; WIDTH]> {
    fn length(&self) -> usize {
        self.len()
    }

    fn words(&self) -> usize {
        self.len() * WIDTH
    }

    fn lend(&mut self, length: usize, fill: u32) {
        self.resize(length, [fill; WIDTH]);
    }

    fn replace(&mut self, place: usize, word: u32) -> Option<u32> {
        let record = self.get_mut(place / WIDTH)?;
        Some(std::mem::replace(&mut record[place % WIDTH], word))
    }
}
