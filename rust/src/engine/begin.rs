//! Begin in the words of document 01, and of document 02 where it changes them; the graph and the roots as plain and weak jobs
//! have them alike.

use super::words::{add, Ends, Rings};
use super::{Limits, Sizes};
use crate::memory::{Memory, HELD, NIL, ROW_WORDS};
use crate::model::{refused, word, Answer, Graph, Refusal, Table};

/// Begin by a caller with these limits.
pub fn begin_within(limits: Limits, memory: &mut Memory, p: usize, k: usize) -> Answer {
    let sizes = Sizes::of(memory, p, k);
    let graph = graph(&memory.weights, &memory.pred_starts, &memory.preds);
    let roots = judge(limits, &graph, sizes.rings(), || sizes.judge_lengths(memory))?;
    clear(memory);
    let (succs, degrees) = linked(&graph);
    (memory.succ_starts, memory.succs) = (succs.starts, succs.words);
    memory.degrees = degrees;
    let Memory {
        weights,
        rings,
        ends,
        counters,
        ..
    } = memory;
    deal_roots(sizes.rings(), &roots, weights, (rings, ends, counters), |root| root);
    Ok(())
}

/// The graph of the lent weights and predecessor tables.
pub(crate) fn graph(weights: &[u32], pred_starts: &[u32], preds: &[u32]) -> Graph {
    Graph {
        weights: weights.to_vec(),
        preds: Table {
            starts: pred_starts.to_vec(),
            words: preds.to_vec(),
        },
    }
}

/// "Order in begin: 2, 1, 3, 4, 5, 6." The roots, if none of them refuses.
pub(crate) fn judge(
    limits: Limits,
    graph: &Graph,
    rings: Rings,
    judge_lengths: impl FnOnce() -> Answer,
) -> Result<Vec<usize>, Refusal> {
    let Rings { p, k } = rings;
    limits.judge(graph.weights.len(), graph.preds.words.len(), p, k)?;
    graph.judge_limits(limits.graph)?;
    judge_lengths()?;
    graph.judge_edges()?;
    let roots = roots(graph);
    // 6: "The roots' limit becomes P·K", detail "their number"
    if roots.len() > p * k {
        return refused(6, word(roots.len()));
    }
    Ok(roots)
}

/// "The roots (degree 0) are taken rising"; "here it is all N tasks".
fn roots(graph: &Graph) -> Vec<usize> {
    (0..graph.weights.len())
        .filter(|&task| graph.predecessors(task).is_empty())
        .collect()
}

/// "Everything is zeroed but weights and the predecessor tables; held tasks become NIL."
fn clear(memory: &mut Memory) {
    memory.succ_starts.fill(0);
    memory.succs.fill(0);
    memory.degrees.fill(0);
    memory.rings.fill(0);
    memory.ends.fill(0);
    memory.counters.fill(0);
    memory.buffers.fill(0);
    memory.executed.fill(0);
    memory.run.fill(0);
    let mut row = [0; ROW_WORDS];
    row[HELD] = NIL;
    memory.rows.fill(row);
}

/// "Successors are filled, degrees are numbers of predecessors."
pub(crate) fn linked(graph: &Graph) -> (Table, Vec<u32>) {
    let tasks = 0..graph.weights.len();
    let lists: Vec<Vec<u32>> = tasks.clone().map(|task| graph.successors(task)).collect();
    let degrees = tasks.map(|task| word(graph.predecessors(task).len())).collect();
    (Table::of(&lists), degrees)
}

/// "root number m, from 0, goes to the ring of owner and filler m mod P, and its weight to that counter": which worker each root
/// goes to. What lies in a ring is made of the root.
pub(crate) fn deal_roots<T>(
    rings: Rings,
    roots: &[usize],
    weights: &[u32],
    (slots, ends, counters): (&mut [T], &mut [u32], &mut [i32]),
    made: impl Fn(u32) -> T,
) -> Vec<usize> {
    let Rings { p, k } = rings;
    let mut all_ends = vec![Ends::default(); p];
    let mut workers = Vec::new();
    for (m, &root) in roots.iter().enumerate() {
        let worker = m % p;
        let ring = rings.ring(worker, worker);
        let of_ring = &mut all_ends[worker];
        if let Some(slot) = slots.get_mut(ring * k + of_ring.tail) {
            *slot = made(word(root));
        }
        *of_ring = of_ring.appended(k);
        of_ring.write(ends, ring);
        add(counters, ring, i64::from(weights.get(root).copied().unwrap_or(0)));
        workers.push(worker);
    }
    workers
}
