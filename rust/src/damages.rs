//! Every word of small runs damaged in turn: on the way through a run, each word of each list takes values at and around
//! the limits that document 01 names, and the ends of each ring take all values up to K + 1 together; then every step of every
//! worker is made.

use crate::memory::{List, Lists, Memory, Step, ACCEPTED, COUNT, END_WORDS, HEAD, TAIL};
use crate::model::Table;
use crate::runs::{Call, Case};
use std::collections::BTreeSet;

/// In this order a worker's steps are tried.
const ORDER: [Step; 4] = [Step::Release, Step::Fetch, Step::Start, Step::Complete];

/// A small graph, with weights from 1 up, with P and K.
struct Run {
    lists: &'static [&'static [u32]],
    p: usize,
    k: usize,
}

/// A task with more successors than its worker's rings hold, the diamond, one worker with one ring, and a task without successors
/// for each of two workers.
const RUNS: [Run; 4] = [
    Run {
        lists: &[&[], &[0], &[0], &[0], &[0], &[0], &[1, 2]],
        p: 2,
        k: 2,
    },
    Run {
        lists: &[&[], &[0], &[0], &[1, 2]],
        p: 2,
        k: 4,
    },
    Run {
        lists: &[&[], &[0], &[0], &[0]],
        p: 1,
        k: 2,
    },
    Run {
        lists: &[&[], &[]],
        p: 2,
        k: 2,
    },
];

impl Run {
    fn memory<M: Lists>(&self) -> M {
        let lists: Vec<Vec<u32>> = self.lists.iter().map(|list| list.to_vec()).collect();
        let table = Table::of(&lists);
        let weights = (1..).take(lists.len()).collect();
        M::sized(weights, table.starts, table.words, self.p, self.k, 0)
    }

    /// What the lists hold after begin and after each accepted step. The lowest worker that can move does, which fills the
    /// rings.
    fn states<M: Lists>(&self) -> Vec<M> {
        let mut memory: M = self.memory();
        (M::MODEL.begin)(&mut memory, self.p, self.k).expect("the graph is sound and has few roots");
        let mut states = vec![memory.clone()];
        while self.moves(&mut memory) {
            states.push(memory.clone());
        }
        states
    }

    fn moves<M: Lists>(&self, memory: &mut M) -> bool {
        let workers = 0..self.p as u32;
        let mut calls = workers.flat_map(|worker| ORDER.map(|step| (worker, step)));
        calls.any(|(worker, step)| (M::MODEL.step)(memory, self.p, self.k, worker, step).is_ok())
    }

    /// The case of one step on these words.
    fn case<M: Lists>(&self, memory: &M, worker: u32, step: Step) -> Case<M> {
        let (p, k) = (self.p, self.k);
        let calls = vec![Call::Step { p, k, worker, step }];
        let memory = memory.clone();
        Case { memory, p, k, calls }
    }

    fn every_step<M: Lists>(&self, memory: &M) -> Vec<Case<M>> {
        let workers = 0..self.p as u32;
        let calls = workers.flat_map(|worker| Step::ALL.map(|step| (worker, step)));
        calls.map(|(worker, step)| self.case(memory, worker, step)).collect()
    }

    /// "N", "E", "P", "K", the entries and steps of a finished run, "65,535" and "2^30", and what lies next to them.
    fn values<M: Lists>(&self, memory: &M) -> BTreeSet<u32> {
        let (n, e, [entries, steps]) = (memory.n(), memory.e(), memory.counts());
        let limits = [0, 1, n, e, self.p, self.k, entries, steps, 65_535].map(|limit| limit as u32);
        let beside = |limit: u32| [limit.wrapping_sub(1), limit, limit + 1];
        // 0 and its neighbours are the signed words from -1 to 1
        let signed = [1 << 30, -(1 << 30), i32::MAX].map(|limit: i32| limit as u32);
        limits.into_iter().chain(signed).flat_map(beside).collect()
    }
}

/// The cases of one word of each list, or the ends of a ring, damaged, with a sound accepted word and with a damaged one, which is
/// read last.
pub fn cases() -> impl Iterator<Item = Case> {
    cases_of::<Memory>()
}

/// The same for either kind of job.
pub fn cases_of<M: Lists>() -> impl Iterator<Item = Case<M>> {
    let runs = RUNS.iter();
    let states = runs.flat_map(|run| run.states::<M>().into_iter().map(move |state| (run, state)));
    states.flat_map(|(run, state)| {
        let mut finished = state.clone();
        finished.replace(List::Run, ACCEPTED, u32::MAX);
        let damaged = [state, finished].map(|memory| [damaged(run, memory.clone()), any_ends(run, &memory)].concat());
        damaged.into_iter().flatten().flat_map(|memory| run.every_step(&memory))
    })
}

/// The memory with each word in turn taking each value.
fn damaged<M: Lists>(run: &Run, memory: M) -> Vec<M> {
    let values = run.values(&memory);
    let mut all = Vec::new();
    for &list in M::LISTS {
        for place in 0..memory.words(list) {
            for &value in &values {
                let mut changed = memory.clone();
                changed.replace(list, place, value);
                all.push(changed);
            }
        }
    }
    all
}

/// The memory with each ring in turn taking each head, tail and count, sound together or not: an empty ring and a full one at
/// every place, one that goes round, a count that doesn't lead from head to tail.
fn any_ends<M: Lists>(run: &Run, memory: &M) -> Vec<M> {
    let words = 0..=run.k as u32 + 1;
    let mut all = Vec::new();
    for ring in 0..run.p * run.p {
        for head in words.clone() {
            for tail in words.clone() {
                for count in words.clone() {
                    let mut changed = memory.clone();
                    let ends = &mut changed.ends()[END_WORDS * ring..][..END_WORDS];
                    (ends[HEAD], ends[TAIL], ends[COUNT]) = (head, tail, count);
                    all.push(changed);
                }
            }
        }
    }
    all
}
