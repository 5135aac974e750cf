//! Runs that nothing but the engine writes, with refused calls among the accepted ones.

use super::{any_sizes, graphs, lent_for, small_sizes, Call, Case};
use crate::draw::Draw;
use crate::engine::Limits;
use crate::memory::{List, Lists, Memory, Step};
use crate::model::{Graph, Refusal};
use crate::trials::random::Lists as Predecessors;

/// In which order a worker's steps are tried; a late Release fills buffers, a late Fetch fills rings.
const ORDERS: [[Step; 4]; 4] = [
    [Step::Release, Step::Fetch, Step::Start, Step::Complete],
    [Step::Fetch, Step::Start, Step::Complete, Step::Release],
    [Step::Start, Step::Complete, Step::Release, Step::Fetch],
    [Step::Complete, Step::Release, Step::Start, Step::Fetch],
];

/// How a run goes.
pub struct Manner {
    /// The order of steps; drawn anew for each call if there is none.
    order: Option<[Step; 4]>,
    /// Whether the lowest worker that can move always does.
    lowest: bool,
    /// One call in so many is any call at all.
    stray: usize,
}

impl Manner {
    pub fn drawn(draw: &mut Draw) -> Manner {
        let order = draw.pick(&ORDERS);
        Manner {
            order: draw.pick(&[None, Some(order), Some(order)]),
            lowest: draw.below(4) == 0,
            stray: draw.pick(&[2, 4, 8, 50]),
        }
    }
}

/// Records calls while the model makes them, so that the next call can be chosen. Calls with another P or K have it at or near
/// these limits.
pub struct Recorder<M: Lists = Memory> {
    limits: Limits,
    pub start: M,
    pub memory: M,
    pub p: usize,
    pub k: usize,
    pub calls: Vec<Call>,
}

impl<M: Lists> Recorder<M> {
    pub fn new(limits: Limits, memory: M, p: usize, k: usize) -> Recorder<M> {
        Recorder {
            limits,
            start: memory.clone(),
            memory,
            p,
            k,
            calls: Vec::new(),
        }
    }

    pub fn case(self) -> Case<M> {
        Case {
            memory: self.start,
            p: self.p,
            k: self.k,
            calls: self.calls,
        }
    }

    /// Makes and records the call; whether it is accepted.
    pub fn call(&mut self, call: Call) -> bool {
        self.calls.push(call);
        call.make(&M::MODEL, &mut self.memory).is_accepted()
    }

    /// Writes a word, records it, and answers the one that was there.
    pub fn write(&mut self, list: List, place: usize, word: u32) -> Option<u32> {
        self.calls.push(Call::Write { list, place, word });
        self.memory.replace(list, place, word)
    }

    pub fn begin(&mut self) -> bool {
        let (p, k) = (self.p, self.k);
        self.call(Call::Begin { p, k })
    }

    pub fn step(&mut self, worker: u32, step: Step) -> bool {
        let (p, k) = (self.p, self.k);
        self.call(Call::Step { p, k, worker, step })
    }

    /// Each step of each worker, up to so many, in a drawn order.
    pub fn every_step(&mut self, draw: &mut Draw, most: usize) {
        let workers = 0..self.p as u32;
        let mut all: Vec<(u32, Step)> = workers.flat_map(|i| Step::ALL.map(|step| (i, step))).collect();
        draw.shuffle(&mut all);
        all.truncate(most);
        for (worker, step) in all {
            self.step(worker, step);
        }
    }

    /// Records a step that is accepted, and some of those that are refused before it; whether there is one.
    fn accepted_step(&mut self, draw: &mut Draw, manner: &Manner) -> bool {
        let first = if manner.lowest { 0 } else { draw.below(self.p) };
        let order = manner.order.unwrap_or_else(|| {
            let mut order = Step::ALL;
            draw.shuffle(&mut order);
            order
        });
        for passed in 0..self.p {
            let worker = ((first + passed) % self.p) as u32;
            for step in order {
                let (p, k) = (self.p, self.k);
                let answer = (M::MODEL.step)(&mut self.memory, p, k, worker, step);
                let full = matches!(answer, Err(Refusal { number: 11, .. }));
                if answer.is_ok() || full || draw.below(4 * manner.stray) == 0 {
                    self.calls.push(Call::Step { p, k, worker, step });
                }
                if answer.is_ok() {
                    return true;
                }
            }
        }
        false
    }

    /// Any call with any worker, P and K; begin with another P or K alone, since begin's own start another run.
    fn stray(&mut self, draw: &mut Draw) {
        let (p, k) = (self.p, self.k);
        let worker = draw.below(p) as u32;
        let beyond = draw.pick(&[p as u32, p as u32 + 1, 65_535, 1 << 31, u32::MAX]);
        let step = draw.pick(&Step::ALL);
        let (other_p, other_k) = others(draw, self.limits, p, k);
        let call = match draw.below(8) {
            0 => Call::Begin { p: other_p, k: other_k },
            1 => Call::Step {
                p: other_p,
                k: other_k,
                worker,
                step,
            },
            2 => Call::Step {
                p,
                k,
                worker: beyond,
                step,
            },
            _ => Call::Step { p, k, worker, step },
        };
        self.call(call);
    }

    /// Goes on until no step is accepted any more, or these calls are made; whether one was still accepted.
    pub fn go(&mut self, draw: &mut Draw, manner: &Manner, most: usize) -> bool {
        let end = self.calls.len().saturating_add(most);
        while self.calls.len() < end {
            if draw.below(manner.stray) == 0 {
                self.stray(draw);
            } else if !self.accepted_step(draw, manner) {
                return false;
            }
        }
        true
    }
}

/// Another P or K, or both, within the limits and beyond.
fn others(draw: &mut Draw, limits: Limits, p: usize, k: usize) -> (usize, usize) {
    let Limits { workers, slots, .. } = limits;
    let other_p = draw.pick(&[0, p - 1, p + 1, workers, workers + 1, k, usize::MAX]);
    let other_k = draw.pick(&[0, 1, k - 1, k + 1, slots, slots + 1, p, usize::MAX]);
    let pair = draw.pick(&[(other_p, k), (p, other_k), (other_p, other_k)]);
    if pair == (p, k) {
        (p, k + 1)
    } else {
        pair
    }
}

/// A run of a graph of any shape with up to `most` tasks.
pub fn any<M: Lists>(draw: &mut Draw, limits: Limits, most: usize) -> Case<M> {
    let graph = graphs::any_within(draw, limits, most);
    run_of(draw, limits, graph)
}

/// A run with N at its limit, and E at or near its own.
pub fn largest<M: Lists>(draw: &mut Draw, limits: Limits) -> Case<M> {
    let graph = graphs::largest(draw, limits);
    run_of(draw, limits, graph)
}

/// A run of a graph with these edges: its weights and the order of each task's predecessors are drawn.
pub fn run_of_lists<M: Lists>(draw: &mut Draw, limits: Limits, lists: &Predecessors) -> Case<M> {
    let mut lists = lists.clone();
    lists.iter_mut().for_each(|list| draw.shuffle(list));
    let graph = graphs::weighed(draw, &lists);
    run_of(draw, limits, graph)
}

/// Mostly one whole run; sometimes some of it, and another begin.
fn run_of<M: Lists>(draw: &mut Draw, limits: Limits, graph: Graph) -> Case<M> {
    let (p, k) = match draw.below(3) {
        0 => small_sizes(draw, limits, &graph),
        _ => any_sizes(draw, limits, &graph),
    };
    let mut recorder = Recorder::<M>::new(limits, lent_for(draw, graph, p, k), p, k);
    recorder.stray(draw);
    if !recorder.begin() {
        recorder.every_step(draw, 16);
        return recorder.case();
    }
    let manner = Manner::drawn(draw);
    if draw.below(4) == 0 {
        let most = draw.below(3 * recorder.memory.n() + 2);
        recorder.go(draw, &manner, most);
        recorder.begin();
    }
    recorder.go(draw, &manner, usize::MAX);
    recorder.every_step(draw, 64);
    recorder.case()
}
