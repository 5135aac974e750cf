//! The lists that a job lends to the engine.

use crate::callers::Whose;
use crate::ids::{TaskId, WorkerId};
use crate::kinds::{Kind, Plain, RunWords};
use crate::tables::Tables;
use std::fmt::Debug;
use std::hash::Hash;

/// What is lent as words without gaps.
pub trait Words: Copy + Debug + Eq + Hash {
    /// Words that no run has.
    const UNWRITTEN: Self;
    /// Its words.
    fn words(self) -> Vec<u32>;
}

/// An entry of the record: a task, and the worker that completed it.
#[derive(Clone, Copy, Debug, PartialEq, Eq, Hash)]
#[repr(C)]
pub struct Entry {
    /// The task.
    pub task: TaskId,
    /// The worker that completed it.
    pub worker: WorkerId,
}

/// A worker's row: "phase, held task, ring pointer, buffer read place, buffer write place, cursor"; in a weak job it holds a
/// copy.
#[derive(Clone, Copy, Debug, PartialEq, Eq, Hash)]
#[repr(C)]
pub struct Row<S = TaskId> {
    pub phase: u32,
    pub held: S,
    pub pointer: WorkerId,
    pub read: u32,
    pub write: u32,
    pub cursor: u32,
}

/// A ring's ends.
#[derive(Clone, Copy, Debug, PartialEq, Eq, Hash)]
#[repr(C)]
pub struct Ends {
    /// The next slot to take from.
    pub head: u32,
    /// The slot that the next task goes to.
    pub tail: u32,
    /// How many tasks wait in the ring: 0 in an empty one, [`slots`](crate::JobOf::slots) in a full one.
    pub count: u32,
}

/// The two run words of document 01.
#[derive(Clone, Copy, Debug, PartialEq, Eq, Hash)]
#[repr(C)]
pub struct Run {
    pub entries: u32,
    pub accepted: u32,
}

/// A word that is no phase, no start and no task.
pub const UNWRITTEN: u32 = u32::MAX;

/// The lists in document 01's order, with the fixed workers of a weak job behind the degrees. No call but an accepted one of the engine writes them.
#[derive(Clone, Debug, PartialEq, Eq, Hash)]
pub struct Memory<K: Kind = Plain> {
    /// The first three.
    pub tables: Tables,
    pub succ_starts: Vec<u32>,
    pub succs: Vec<TaskId>,
    pub degrees: Vec<u32>,
    /// Empty in a plain job.
    pub fixed: Vec<u32>,
    pub rings: Vec<K::Slot>,
    pub ends: Vec<Ends>,
    pub counters: Vec<i32>,
    pub buffers: Vec<TaskId>,
    pub executed: Vec<K::Entry>,
    pub run: K::Run,
    pub rows: Vec<Row<K::Slot>>,
}

impl<K: Kind> Memory<K> {
    /// N.
    pub fn tasks(&self) -> usize {
        self.tables.weights.len()
    }

    /// E.
    pub fn edges(&self) -> usize {
        self.tables.preds.len()
    }

    /// All lists with their stated lengths, where N, E, P and K are within the caller's limits.
    ///
    /// A number beyond its limit counts as the limit here, so that no product is large. Each call that judges lengths
    /// by that number judges the number first and answers 2.
    ///
    /// Begin writes every word but the tables'. Before that the rows and the successor table hold words that no run
    /// has, so that a job which isn't begun can't be taken for one that is: a step that passes 2, 1 and 7 is refused with 8,
    /// a lookup of successors with 3.
    pub fn sized(tables: Tables, workers: usize, slots: usize, whose: Whose) -> Memory<K> {
        let n = tables.weights.len().min(whose.tasks());
        let e = tables.preds.len().min(whose.edges());
        let p = workers.min(whose.workers());
        let k = slots.min(whose.slots());
        Memory {
            tables,
            succ_starts: vec![UNWRITTEN; n + 1],
            succs: vec![TaskId::new(UNWRITTEN); e],
            degrees: vec![0; n],
            fixed: vec![UNWRITTEN; K::fixed_words(n)],
            rings: vec![K::Slot::UNWRITTEN; p * p * k],
            ends: vec![Ends::EMPTY; p * p],
            counters: vec![0; p * p],
            buffers: vec![TaskId::new(0); p * n],
            executed: vec![K::Entry::UNWRITTEN; K::record_room(n, e)],
            run: K::Run::NONE,
            rows: vec![Row::UNWRITTEN; p],
        }
    }

    /// The words of each list.
    pub fn lists(&self) -> Vec<Vec<u32>> {
        let numbers = |tasks: &[TaskId]| tasks.iter().map(|task| task.number()).collect();
        let counters = self.counters.iter().map(|&counter| counter as u32);
        vec![
            self.tables.weights.clone(),
            self.tables.pred_starts.clone(),
            numbers(&self.tables.preds),
            self.succ_starts.clone(),
            numbers(&self.succs),
            self.degrees.clone(),
            self.fixed.clone(),
            words_of(&self.rings),
            words_of(&self.ends),
            counters.collect(),
            numbers(&self.buffers),
            words_of(&self.executed),
            self.run.words(),
            words_of(&self.rows),
        ]
    }
}

fn words_of<W: Words>(list: &[W]) -> Vec<u32> {
    list.iter().flat_map(|one| one.words()).collect()
}

impl Words for TaskId {
    const UNWRITTEN: TaskId = TaskId::new(UNWRITTEN);

    fn words(self) -> Vec<u32> {
        vec![self.number()]
    }
}

impl Words for Entry {
    const UNWRITTEN: Entry = Entry {
        task: TaskId::UNWRITTEN,
        worker: WorkerId::new(UNWRITTEN),
    };

    fn words(self) -> Vec<u32> {
        vec![self.task.number(), self.worker.number()]
    }
}

impl Words for Run {
    const UNWRITTEN: Run = Run {
        entries: UNWRITTEN,
        accepted: UNWRITTEN,
    };

    fn words(self) -> Vec<u32> {
        vec![self.entries, self.accepted]
    }
}

impl Ends {
    /// Of a ring that nothing was put into.
    const EMPTY: Ends = Ends {
        head: 0,
        tail: 0,
        count: 0,
    };
}

impl Words for Ends {
    const UNWRITTEN: Ends = Ends {
        head: UNWRITTEN,
        tail: UNWRITTEN,
        count: UNWRITTEN,
    };

    fn words(self) -> Vec<u32> {
        vec![self.head, self.tail, self.count]
    }
}

impl<S: Words> Words for Row<S> {
    const UNWRITTEN: Row<S> = Row {
        phase: UNWRITTEN,
        held: S::UNWRITTEN,
        pointer: WorkerId::new(UNWRITTEN),
        read: UNWRITTEN,
        write: UNWRITTEN,
        cursor: UNWRITTEN,
    };

    fn words(self) -> Vec<u32> {
        let after = [self.pointer.number(), self.read, self.write, self.cursor];
        let held = self.held.words();
        [self.phase].into_iter().chain(held).chain(after).collect()
    }
}
