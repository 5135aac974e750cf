//! Lists of calls for an engine, drawn from a seed: honest runs with refused calls among them, words damaged between the
//! calls, wrong lengths, bad graphs, arbitrary words. Sizes keep to a caller's limits, or go just beyond them.

mod bad;
mod damage;
pub mod graphs;
mod honest;
mod weak;

pub use weak::{next_weak_case, weak_runs_of_one_graph};

use crate::draw::Draw;
use crate::engine::{Engine, Limits};
use crate::memory::{List, Lists, Memory, Outcome, Step};
use crate::model::{Answer, Graph, Refusal};

/// What is lent before the first call, and the calls. Each call finds what the last one left.
#[derive(Clone, Debug)]
pub struct Case<M: Lists = Memory> {
    pub memory: M,
    /// P and K that the lists are sized for.
    pub p: usize,
    pub k: usize,
    pub calls: Vec<Call>,
}

#[derive(Clone, Copy, Debug, PartialEq, Eq)]
pub enum Call {
    Begin {
        p: usize,
        k: usize,
    },
    Step {
        p: usize,
        k: usize,
        worker: u32,
        step: Step,
    },
    /// Not the engine: one word of a list is written, the rows' words counted through all records.
    Write {
        list: List,
        place: usize,
        word: u32,
    },
    /// Not the engine: the list is lent with another length from here on, words that are added being this one.
    Lend {
        list: List,
        length: usize,
        word: u32,
    },
}

#[derive(Clone, Copy, Debug, PartialEq, Eq)]
pub enum Reply<O = Outcome> {
    Begun(Answer),
    Stepped(Result<O, Refusal>),
    /// The call wasn't the engine's.
    Changed,
}

impl<O> Reply<O> {
    pub fn is_accepted(&self) -> bool {
        matches!(self, Reply::Begun(Ok(())) | Reply::Stepped(Ok(_)))
    }

    pub fn refusal(&self) -> Option<Refusal> {
        match self {
            Reply::Begun(answer) => answer.err(),
            Reply::Stepped(answer) => answer.as_ref().err().copied(),
            Reply::Changed => None,
        }
    }
}

impl Call {
    /// Makes the call by this engine.
    pub fn make<M: Lists>(self, engine: &Engine<M>, memory: &mut M) -> Reply<M::Outcome> {
        match self {
            Call::Begin { p, k } => Reply::Begun((engine.begin)(memory, p, k)),
            Call::Step { p, k, worker, step } => Reply::Stepped((engine.step)(memory, p, k, worker, step)),
            Call::Write { list, place, word } => {
                memory.replace(list, place, word);
                Reply::Changed
            }
            Call::Lend { list, length, word } => {
                memory.lend(list, length, word);
                Reply::Changed
            }
        }
    }

    fn is_engine_s(self) -> bool {
        matches!(self, Call::Begin { .. } | Call::Step { .. })
    }
}

impl<M: Lists> Case<M> {
    /// "Nothing but the engine writes its memory meanwhile."
    pub fn is_honest(&self) -> bool {
        self.calls.iter().all(|call| call.is_engine_s())
    }
}

/// Memory for this graph, sized for P and K, every other word the same arbitrary one.
fn lent_for<M: Lists>(draw: &mut Draw, graph: Graph, p: usize, k: usize) -> M {
    let fill = draw.pick(&[0, 1, 2, 65_535, 70_000, 1 << 31, u32::MAX]);
    M::sized(graph.weights, graph.preds.starts, graph.preds.words, p, k, fill)
}

/// "P from 1 to 16", "K from 2 to 64", or to smaller limits: small ones and the limits often, mostly with room for all roots.
fn any_sizes(draw: &mut Draw, limits: Limits, graph: &Graph) -> (usize, usize) {
    let (p, k) = (draw.between(1, limits.workers), draw.between(2, limits.slots));
    let p = draw.pick(&[1, 2, 3, 4, limits.workers, p, p]);
    let k = draw.pick(&[2, 2, 3, 4, 5, limits.slots, k, k]);
    enlarged(draw, limits, graph, (p, k))
}

/// Few rings and slots, which are soon full, and in which a damaged word is soon read; mostly with room for all roots.
fn small_sizes(draw: &mut Draw, limits: Limits, graph: &Graph) -> (usize, usize) {
    let largest = (limits.workers.min(5), limits.slots.min(8));
    let sizes = draw.pick(&[(1, 2), (1, 2), (1, 3), (2, 2), (2, 2), (2, 4), (3, 2), (3, 3), largest]);
    enlarged(draw, limits, graph, sizes)
}

/// Mostly enlarged until there is room for all roots.
fn enlarged(draw: &mut Draw, limits: Limits, graph: &Graph, (mut p, mut k): (usize, usize)) -> (usize, usize) {
    let starts = graph.preds.starts.windows(2);
    let roots = starts.filter(|pair| pair[0] == pair[1]).count();
    if draw.below(8) == 0 {
        return (p, k);
    }
    while roots > p * k && (p, k) != (limits.workers, limits.slots) {
        p = (p + 1).min(limits.workers);
        k = (k + 1).min(limits.slots);
    }
    (p, k)
}

/// The case of this seed. Every sixteen seeds hold each kind; the largest graphs come once in 64.
pub fn next_case(seed: u64) -> Case {
    next_case_within(Limits::ENGINE, seed)
}

/// The same for a caller with these limits; some graphs have more tasks than the preview takes.
pub fn next_case_within(limits: Limits, seed: u64) -> Case {
    let mut draw = Draw::new(seed);
    let draw = &mut draw;
    match seed % 16 {
        0 => honest::any(draw, limits, 2),
        1..=4 => honest::any(draw, limits, 30),
        6 => honest::any(draw, limits, 200),
        7 if seed % 64 == 7 => honest::largest(draw, limits),
        7 => honest::any(draw, limits, 100),
        8..=9 => damage::between_calls(draw, limits, 10),
        10 => damage::at_full_rings(draw, limits),
        11 => damage::between_calls(draw, limits, 60),
        12 => damage::everywhere(draw, limits),
        13 => bad::lengths(draw, limits),
        5 | 14 => bad::graphs(draw, limits),
        _ => bad::limits(draw, limits),
    }
}

/// Some honest runs of one graph: P, K, the weights, the order of predecessors in the table and the order of calls differ.
///
/// "Two runs are of one graph if N and the edges agree."
pub fn runs_of_one_graph(seed: u64, most: usize, count: usize) -> Vec<Case> {
    runs_of_one_graph_within(Limits::ENGINE, seed, most, count)
}

/// The same for a caller with these limits.
pub fn runs_of_one_graph_within(limits: Limits, seed: u64, most: usize, count: usize) -> Vec<Case> {
    runs_of_one_graph_by(limits, seed, most, count)
}

/// The same for either kind of job.
fn runs_of_one_graph_by<M: Lists>(limits: Limits, seed: u64, most: usize, count: usize) -> Vec<Case<M>> {
    let mut draw = Draw::new(seed);
    let lists = graphs::shaped_within(&mut draw, limits, most);
    (0..count)
        .map(|_| honest::run_of_lists(&mut draw, limits, &lists))
        .collect()
}
