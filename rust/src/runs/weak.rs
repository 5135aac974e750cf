//! Lists of calls for weak jobs: the plain job's kinds, with copies, fixed workers and R damaged too, and later copies that meet a
//! full ring.

use super::damage::{self, accepted, cursor, damage_in, head_slot, near, phase, word_of_both, Damaged};
use super::honest::Recorder;
use super::{bad, graphs, honest, lent_for, runs_of_one_graph_by, Case};
use crate::draw::Draw;
use crate::engine::Limits;
use crate::memory::{List, Lists, Step, ACCEPTED, ENTRIES};
use crate::weak::{Memory, COPY_WORDS, CURSOR, HELD_PRED, HELD_TASK, PHASE, POINTER, READ, ROOTS, ROW_WORDS, UNFIXED};

/// The case of this seed. Every sixteen seeds hold each kind; the largest graphs come once in 128.
pub fn next_weak_case(seed: u64) -> Case<Memory> {
    let mut draw = Draw::new(seed);
    let (draw, limits) = (&mut draw, Limits::ENGINE);
    match seed % 16 {
        0 => honest::any(draw, limits, 2),
        1..=4 => honest::any(draw, limits, 30),
        6 => honest::any(draw, limits, 100),
        7 if seed % 128 == 7 => honest::largest(draw, limits),
        7 => honest::any(draw, limits, 60),
        8 => damage::between_calls(draw, limits, 10),
        9 => at_fixed_ring(draw, limits),
        10 => damage::at_full_rings(draw, limits),
        11 => damage::between_calls(draw, limits, 40),
        12 => damage::everywhere(draw, limits),
        13 => bad::lengths(draw, limits),
        5 | 14 => bad::graphs(draw, limits),
        _ => bad::limits(draw, limits),
    }
}

/// Some honest weak runs of one graph: P, K, the weights, the order of predecessors in the table and the order of calls differ.
pub fn weak_runs_of_one_graph(seed: u64, most: usize, count: usize) -> Vec<Case<Memory>> {
    runs_of_one_graph_by(Limits::ENGINE, seed, most, count)
}

/// Worker 1 releases later copies of tasks that are all fixed to worker 0, until their ring is full: 11, while other rings have
/// room; then damage that comes before it or behind it, and the Release again.
///
/// "later copies go only to that worker's ring, and 11 is given exactly if that ring is full"
fn at_fixed_ring(draw: &mut Draw, limits: Limits) -> Case<Memory> {
    let (p, k) = (draw.between(2, 4), draw.between(2, 3));
    let (heavy, tasks) = (65_535, 2 * k);
    // two roots, and tasks after both of them
    let lists = [vec![Vec::new(); 2], vec![vec![0, 1]; tasks]].concat();
    let mut graph = graphs::weighed(draw, &lists);
    graph.weights = vec![0; 2 + tasks];
    // worker 1 keeps its root, so that worker 0 has the least sum
    graph.weights[1] = heavy;
    let mut recorder = Recorder::<Memory>::new(limits, lent_for(draw, graph, p, k), p, k);
    let execute = |recorder: &mut Recorder<Memory>, worker| {
        for step in [Step::Fetch, Step::Start, Step::Complete] {
            recorder.step(worker, step);
        }
    };
    recorder.begin();
    execute(&mut recorder, 0);
    for _ in 0..tasks {
        recorder.step(0, Step::Release);
        execute(&mut recorder, 0);
    }
    execute(&mut recorder, 1);
    for _ in 0..k {
        recorder.step(1, Step::Release);
    }
    for _ in 0..16 {
        recorder.step(1, Step::Release);
        let list = draw.pick(&[
            List::Weights,
            List::Run,
            List::Ends,
            List::Ends,
            List::Fixed,
            List::Fixed,
            List::Counters,
            List::Degrees,
            List::Rows,
        ]);
        let old = damage_in(draw, &mut recorder, list);
        recorder.step(1, Step::Release);
        if let Some((list, place, word)) = old {
            recorder.write(list, place, word);
        }
    }
    recorder.every_step(draw, 16);
    recorder.case()
}

const LISTS: [List; 22] = [
    List::Rows,
    List::Rows,
    List::Rows,
    List::Rows,
    List::Run,
    List::Run,
    List::Run,
    List::Ends,
    List::Ends,
    List::Counters,
    List::Rings,
    List::Rings,
    List::Buffers,
    List::SuccStarts,
    List::Succs,
    List::Degrees,
    List::Fixed,
    List::Fixed,
    List::Weights,
    List::PredStarts,
    List::Preds,
    List::Executed,
];

impl Damaged for Memory {
    const READ_MORE: &'static [List] = &LISTS;

    fn read_next(&self, draw: &mut Draw, list: List, k: usize) -> Option<usize> {
        let worker = draw.below(self.rows.len().max(1));
        let held = || self.rows.get(worker).map(|row| row[HELD_TASK] as usize);
        let successor = || {
            let task = next_successor(self, worker).and_then(|at| self.succs.get(at));
            task.map(|&task| task as usize)
        };
        match list {
            // either word of the copy
            List::Rings => head_slot(draw, &self.ends, k).map(|slot| COPY_WORDS * slot + draw.below(COPY_WORDS)),
            List::Buffers => self.rows.get(worker).map(|row| worker * self.n() + row[READ] as usize),
            List::Succs => next_successor(self, worker),
            // a Complete reads the degree and perhaps the weight, a Release the fixed worker and perhaps the weight
            List::Weights if draw.below(2) == 0 => held(),
            List::Fixed | List::Weights => successor(),
            List::Degrees | List::SuccStarts => held(),
            // counter (i, i), which a Complete may read; a Release may read them all
            List::Counters if draw.below(2) == 0 => Some(worker * self.rows.len() + worker),
            _ => None,
        }
    }

    fn word_for(&self, draw: &mut Draw, list: List, place: usize, p: usize, k: usize) -> u32 {
        let (n, [entries, steps]) = (self.n(), self.counts());
        match list {
            // "65,535 before, else below P or damaged"
            List::Fixed => draw.pick(&[UNFIXED, UNFIXED, 0, p as u32 - 1, p as u32, 65_534, 65_536, u32::MAX]),
            List::Run => match place {
                ENTRIES => near(draw, entries + 1),
                ACCEPTED => accepted(draw, steps),
                _ => forged_roots(draw, self),
            },
            List::Rows => match place % ROW_WORDS {
                PHASE => phase(draw),
                POINTER => near(draw, p),
                CURSOR => cursor(draw, n),
                HELD_TASK | HELD_PRED => near(draw, n),
                // read and write place
                _ => near(draw, n + 1),
            },
            _ => word_of_both(draw, self, list, place, k),
        }
    }

    fn draw_all(&mut self, draw: &mut Draw, p: usize, k: usize) {
        let (n, e) = (self.n(), self.e());
        damage::words_below(draw, &mut self.succ_starts, e + 1);
        self.succ_starts.sort_unstable();
        damage::words_below(draw, &mut self.succs, n);
        damage::words_below(draw, &mut self.degrees, 4);
        for fixed in &mut self.fixed {
            *fixed = draw.pick(&[UNFIXED, p as u32 - 1, 0]);
        }
        damage::words_below(draw, self.rings.as_flattened_mut(), n);
        damage::draw_ends(draw, &mut self.ends, k);
        damage::words_below(draw, &mut self.buffers, n);
        damage::words_below(draw, &mut self.executed, n);
        let roots = draw.below(n + 1);
        let copies = draw.below(self.all_copies(roots) + 1);
        let steps = draw.below(self.all_steps(roots) + 1);
        self.run = [copies, steps, roots].map(|word| word as u32).to_vec();
        damage::draw_counters(draw, &mut self.counters);
        for row in &mut self.rows {
            let write = draw.below(n + 1);
            let read = draw.below(write + 1);
            let (phase, held, pointer) = (draw.below(3), [draw.below(n), draw.below(n)], draw.below(p));
            *row = [phase, held[0], held[1], pointer, read, write, draw.below(2)].map(|word| word as u32);
        }
    }
}

/// R near the number that begin wrote, and near N.
fn forged_roots(draw: &mut Draw, memory: &Memory) -> u32 {
    let (n, roots) = (memory.n() as u32, memory.run[ROOTS]);
    draw.pick(&[
        0,
        roots.saturating_sub(1),
        roots.saturating_add(1),
        n.saturating_sub(1),
        n,
        n + 1,
        n + 1,
        65_535,
        u32::MAX,
    ])
}

/// The place of the successor that the worker would release next.
fn next_successor(memory: &Memory, worker: usize) -> Option<usize> {
    let row = memory.rows.get(worker)?;
    let task = *memory.buffers.get(worker * memory.n() + row[READ] as usize)?;
    let start = *memory.succ_starts.get(task as usize)?;
    Some(start as usize + row[CURSOR] as usize)
}
