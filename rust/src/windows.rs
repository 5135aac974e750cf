//! Load windows in the words of document 02, No. 4: all is judged, and then each window is summed afresh.

use crate::engine::{Limits, MAX_WORKERS};
use crate::memory::ENTRIES;
use crate::model::{refused, Answer, MAX_WEIGHT};

/// "a recorded task ≥ N, worker ≥ P or weight over 65,535 is 8": the weight of an entry, and the worker that finished it.
fn entry(weights: &[u32], pair: &[u32], p: usize) -> Option<(u32, usize)> {
    let &[task, worker] = pair else {
        return None;
    };
    let weight = *weights.get(task as usize)?;
    let worker = worker as usize;
    (worker < p && weight <= MAX_WEIGHT).then_some((weight, worker))
}

/// "the weight each worker finished and the spread from smallest to largest": P+1 words, "the spread last".
fn loads(window: &[(u32, usize)], p: usize) -> Vec<u32> {
    let finished = |worker| {
        let of_worker = window.iter().filter(|&&(_, by)| by == worker);
        of_worker.map(|&(weight, _)| weight).sum()
    };
    let mut words: Vec<u32> = (0..p).map(finished).collect();
    let smallest = words.iter().copied().min().unwrap_or(0);
    let largest = words.iter().copied().max().unwrap_or(0);
    words.push(largest - smallest);
    words
}

/// Load windows: the lent weights, execution record and run words are read, the results are written; refused, "all lent memory
/// keeps its words".
///
/// "Refused: 15 for m zero or above the entries recorded, after 2 and every length check but that of the result words, which it
/// precedes; last, a recorded task ≥ N, worker ≥ P or weight over 65,535 is 8, and entries over N are 8 before 15." "A later
/// refusal without a stated detail has detail 0."
pub fn windows(weights: &[u32], executed: &[u32], run: &[u32], results: &mut [u32], p: usize, m: usize) -> Answer {
    let n = weights.len();
    if n > Limits::ENGINE.tasks() || !(1..=MAX_WORKERS).contains(&p) {
        return refused(2, 0);
    }
    if executed.len() != 2 * n || run.len() != 2 {
        return refused(1, 0);
    }
    let entries = run[ENTRIES] as usize;
    if entries > n {
        return refused(8, 0);
    }
    if m == 0 || m > entries {
        return refused(15, 0);
    }
    // "for every run of m neighbouring record entries", "exactly P+1 lent words per window"
    if results.len() != (entries - m + 1) * (p + 1) {
        return refused(1, 0);
    }
    let recorded = executed[..2 * entries].chunks(2).map(|pair| entry(weights, pair, p));
    let Some(recorded) = recorded.collect::<Option<Vec<_>>>() else {
        return refused(8, 0);
    };
    // "The figures come for all windows in order, each as if summed afresh."
    let words: Vec<u32> = recorded.windows(m).flat_map(|window| loads(window, p)).collect();
    results.copy_from_slice(&words);
    Ok(())
}
