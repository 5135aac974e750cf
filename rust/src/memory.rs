//! The lent memory of begin and the steps, one field for each list of document 01.

use crate::engine::{Engine, MODEL};
use std::fmt::Debug;

/// Words of a worker's row.
pub const ROW_WORDS: usize = 6;

/// The places of a worker's row: "phase, held task, ring pointer, buffer read place, buffer write place, cursor".
pub const PHASE: usize = 0;
pub const HELD: usize = 1;
pub const POINTER: usize = 2;
pub const READ: usize = 3;
pub const WRITE: usize = 4;
pub const CURSOR: usize = 5;

/// Words of a ring's ends.
pub const END_WORDS: usize = 3;

/// The places of a ring's ends: "A ring keeps a count beside head and tail".
pub const HEAD: usize = 0;
pub const TAIL: usize = 1;
pub const COUNT: usize = 2;

/// The places of the run words: "entries recorded, steps accepted".
pub const ENTRIES: usize = 0;
pub const ACCEPTED: usize = 1;

/// "The mark NIL, 65,535, stands for "no task" in a worker's row".
pub const NIL: u32 = 65_535;

/// One field for each lent list of document 01, in its order.
#[derive(Clone, Debug, PartialEq, Eq, Default)]
pub struct Memory {
    pub weights: Vec<u32>,
    pub pred_starts: Vec<u32>,
    pub preds: Vec<u32>,
    pub succ_starts: Vec<u32>,
    pub succs: Vec<u32>,
    pub degrees: Vec<u32>,
    pub rings: Vec<u32>,
    /// Head, tail and count of each ring, P·P triples: ring q's are at 3q, 3q + 1 and 3q + 2.
    pub ends: Vec<u32>,
    pub counters: Vec<i32>,
    pub buffers: Vec<u32>,
    /// "Execution record 2N (task, worker)."
    pub executed: Vec<u32>,
    /// "Two run words: entries recorded, steps accepted."
    pub run: Vec<u32>,
    /// "phase, held task, ring pointer, buffer read place, buffer write place, cursor"
    pub rows: Vec<[u32; ROW_WORDS]>,
}

impl Memory {
    /// The lists sized for a graph, P and K; all words outside weights and predecessor tables are `fill`.
    ///
    /// "Each length is exact. P and K are handed over as numbers; N and E are the lengths of weights and predecessors".
    pub fn sized(weights: Vec<u32>, pred_starts: Vec<u32>, preds: Vec<u32>, p: usize, k: usize, fill: u32) -> Memory {
        let (n, e) = (weights.len(), preds.len());
        Memory {
            weights,
            pred_starts,
            preds,
            succ_starts: vec![fill; n + 1],
            succs: vec![fill; e],
            degrees: vec![fill; n],
            rings: vec![fill; p * p * k],
            ends: vec![fill; END_WORDS * p * p],
            counters: vec![fill as i32; p * p],
            buffers: vec![fill; p * n],
            executed: vec![fill; 2 * n],
            run: vec![fill; 2],
            rows: vec![[fill; ROW_WORDS]; p],
        }
    }

    /// "N and E are the lengths of weights and predecessors": N.
    pub fn n(&self) -> usize {
        self.weights.len()
    }

    /// "N and E are the lengths of weights and predecessors": E.
    pub fn e(&self) -> usize {
        self.preds.len()
    }
}

/// What the calls of one kind of job are lent, and how that kind answers.
pub trait Lists: Clone + Debug + PartialEq + Eq + 'static {
    /// What an accepted step answers.
    type Outcome: Copy + Debug + PartialEq + Eq;

    /// The model of this kind of job.
    const MODEL: Engine<Self>;

    /// The lists that are lent, in their order.
    const LISTS: &'static [List];

    /// The lists sized for a graph, P and K; all words outside weights and predecessor tables are `fill`.
    fn sized(weights: Vec<u32>, pred_starts: Vec<u32>, preds: Vec<u32>, p: usize, k: usize, fill: u32) -> Self;

    fn weights(&self) -> &[u32];

    fn preds(&self) -> &[u32];

    /// The ends of the rings, three words for each.
    fn ends(&mut self) -> &mut [u32];

    /// What the entries and the accepted word are judged by: the entries and the steps of a finished run.
    fn counts(&self) -> [usize; 2];

    /// The list's length, that of records in records.
    fn length(&self, list: List) -> usize;

    /// The words of a list, those of records counted through all of them.
    fn words(&self, list: List) -> usize;

    /// Gives the list another length; what is added is this word.
    fn lend(&mut self, list: List, length: usize, fill: u32);

    /// Writes a word and answers the one that was there; the words of records are counted through all of them. A place outside the
    /// list has no word.
    fn replace(&mut self, list: List, place: usize, word: u32) -> Option<u32>;

    /// "N and E are the lengths of weights and predecessors": N.
    fn n(&self) -> usize {
        self.weights().len()
    }

    /// "N and E are the lengths of weights and predecessors": E.
    fn e(&self) -> usize {
        self.preds().len()
    }
}

impl Lists for Memory {
    type Outcome = Outcome;

    const MODEL: Engine = MODEL;

    const LISTS: &'static [List] = &List::ALL;

    fn sized(weights: Vec<u32>, pred_starts: Vec<u32>, preds: Vec<u32>, p: usize, k: usize, fill: u32) -> Memory {
        Memory::sized(weights, pred_starts, preds, p, k, fill)
    }

    fn weights(&self) -> &[u32] {
        &self.weights
    }

    fn preds(&self) -> &[u32] {
        &self.preds
    }

    fn ends(&mut self) -> &mut [u32] {
        &mut self.ends
    }

    /// N entries and 3N+E steps.
    fn counts(&self) -> [usize; 2] {
        let (n, e) = (self.n(), self.e());
        [n, 3 * n + e]
    }

    fn length(&self, list: List) -> usize {
        Memory::length(self, list)
    }

    fn words(&self, list: List) -> usize {
        match list {
            List::Rows => self.rows.len() * ROW_WORDS,
            _ => self.length(list),
        }
    }

    fn lend(&mut self, list: List, length: usize, fill: u32) {
        Memory::lend(self, list, length, fill);
    }

    fn replace(&mut self, list: List, place: usize, word: u32) -> Option<u32> {
        Memory::replace(self, list, place, word)
    }
}

/// The lent lists by name, in document 01's order.
#[derive(Clone, Copy, Debug, PartialEq, Eq)]
pub enum List {
    Weights,
    PredStarts,
    Preds,
    SuccStarts,
    Succs,
    Degrees,
    /// Of weak jobs alone.
    Fixed,
    Rings,
    Ends,
    Counters,
    Buffers,
    Executed,
    Run,
    Rows,
}

impl List {
    /// The lists of a plain job.
    pub const ALL: [List; 13] = [
        List::Weights,
        List::PredStarts,
        List::Preds,
        List::SuccStarts,
        List::Succs,
        List::Degrees,
        List::Rings,
        List::Ends,
        List::Counters,
        List::Buffers,
        List::Executed,
        List::Run,
        List::Rows,
    ];
}

/// A list by its name: words, signed words or records.
enum Named<'a> {
    Words(&'a mut Vec<u32>),
    Counters(&'a mut Vec<i32>),
    Rows(&'a mut Vec<[u32; ROW_WORDS]>),
}

impl Memory {
    fn named(&mut self, list: List) -> Option<Named<'_>> {
        Some(match list {
            List::Weights => Named::Words(&mut self.weights),
            List::PredStarts => Named::Words(&mut self.pred_starts),
            List::Preds => Named::Words(&mut self.preds),
            List::SuccStarts => Named::Words(&mut self.succ_starts),
            List::Succs => Named::Words(&mut self.succs),
            List::Degrees => Named::Words(&mut self.degrees),
            List::Fixed => return None,
            List::Rings => Named::Words(&mut self.rings),
            List::Ends => Named::Words(&mut self.ends),
            List::Counters => Named::Counters(&mut self.counters),
            List::Buffers => Named::Words(&mut self.buffers),
            List::Executed => Named::Words(&mut self.executed),
            List::Run => Named::Words(&mut self.run),
            List::Rows => Named::Rows(&mut self.rows),
        })
    }

    /// The list's length, that of the rows in records.
    pub fn length(&self, list: List) -> usize {
        match list {
            List::Weights => self.weights.len(),
            List::PredStarts => self.pred_starts.len(),
            List::Preds => self.preds.len(),
            List::SuccStarts => self.succ_starts.len(),
            List::Succs => self.succs.len(),
            List::Degrees => self.degrees.len(),
            List::Fixed => 0,
            List::Rings => self.rings.len(),
            List::Ends => self.ends.len(),
            List::Counters => self.counters.len(),
            List::Buffers => self.buffers.len(),
            List::Executed => self.executed.len(),
            List::Run => self.run.len(),
            List::Rows => self.rows.len(),
        }
    }

    /// Gives the list another length; what is added is this word.
    pub fn lend(&mut self, list: List, length: usize, fill: u32) {
        match self.named(list) {
            Some(Named::Words(words)) => words.resize(length, fill),
            Some(Named::Counters(counters)) => counters.resize(length, fill as i32),
            Some(Named::Rows(rows)) => rows.resize(length, [fill; ROW_WORDS]),
            None => {}
        }
    }

    /// Writes a word and answers the one that was there; the words of the rows are counted through all records. A place
    /// outside the list has no word.
    pub fn replace(&mut self, list: List, place: usize, word: u32) -> Option<u32> {
        match self.named(list)? {
            Named::Words(words) => words.get_mut(place).map(|found| std::mem::replace(found, word)),
            Named::Counters(counters) => {
                let found = counters.get_mut(place)?;
                Some(std::mem::replace(found, word as i32) as u32)
            }
            Named::Rows(rows) => {
                let found = rows.get_mut(place / ROW_WORDS)?.get_mut(place % ROW_WORDS)?;
                Some(std::mem::replace(found, word))
            }
        }
    }
}

#[derive(Clone, Copy, Debug, PartialEq, Eq)]
pub enum Step {
    Fetch,
    Start,
    Complete,
    Release,
}

impl Step {
    pub const ALL: [Step; 4] = [Step::Fetch, Step::Start, Step::Complete, Step::Release];
}

/// What an accepted step answers.
///
/// "An accepted Fetch answers the task; a Release answers either the degree left or the task with its new owner. Begin,
/// Start and Complete answer acceptance alone".
#[derive(Clone, Copy, Debug, PartialEq, Eq)]
pub enum Outcome {
    Moved,
    Fetched { task: u32 },
    DegreeLeft { degree: u32 },
    Placed { task: u32, owner: u32 },
}
