//! Load windows as one would write them in plain Rust: all is judged, and then one entry leaves and one enters from window to
//! window. They keep the promises of the proved ones, whose cost is compared with their own.

use crate::model::{refused, Refusal, MAX_TASKS};

const MAX_WEIGHT: u32 = 65_535;
const MAX_WORKERS: usize = 16;

/// 2, 1, 8 for the entries, 15, 1 for the results, 8 for an entry; answers how many entries are recorded.
fn judge(
    weights: &[u32],
    executed: &[u32],
    run: &[u32],
    results: &[u32],
    p: usize,
    m: usize,
) -> Result<usize, Refusal> {
    if weights.len() > MAX_TASKS || p == 0 || p > MAX_WORKERS {
        return refused(2, 0);
    }
    if executed.len() != 2 * weights.len() || run.len() != 2 {
        return refused(1, 0);
    }
    let entries = run[0] as usize;
    if entries > weights.len() {
        return refused(8, 0);
    }
    if m == 0 || m > entries {
        return refused(15, 0);
    }
    if results.len() != (entries - m + 1) * (p + 1) {
        return refused(1, 0);
    }
    let sound = |pair: &[u32]| {
        let weight = weights.get(pair[0] as usize);
        weight.is_some_and(|&weight| weight <= MAX_WEIGHT) && (pair[1] as usize) < p
    };
    if !executed[..2 * entries].chunks_exact(2).all(sound) {
        return refused(8, 0);
    }
    Ok(entries)
}

/// Writes the sums and the spread of all windows of m record entries; refused, it writes nothing.
pub fn windows(
    weights: &[u32],
    executed: &[u32],
    run: &[u32],
    results: &mut [u32],
    p: usize,
    m: usize,
) -> Result<(), Refusal> {
    let entries = judge(weights, executed, run, results, p, m)?;
    let entry = |place: usize| {
        let weight = weights[executed[2 * place] as usize];
        (executed[2 * place + 1] as usize, weight)
    };
    let mut sums = [0; MAX_WORKERS];
    for place in 0..m {
        let (worker, weight) = entry(place);
        sums[worker] += weight;
    }
    for (first, words) in results.chunks_exact_mut(p + 1).enumerate() {
        let (mut smallest, mut largest) = (u32::MAX, 0);
        for (word, &sum) in words.iter_mut().zip(&sums[..p]) {
            *word = sum;
            smallest = smallest.min(sum);
            largest = largest.max(sum);
        }
        words[p] = largest - smallest;
        if first + m < entries {
            let (worker, weight) = entry(first);
            sums[worker] -= weight;
            let (worker, weight) = entry(first + m);
            sums[worker] += weight;
        }
    }
    Ok(())
}
