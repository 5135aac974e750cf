//! Tables of few words in all places, lists of every short length.

use yolluvek::{Tables, TaskId};

pub const WORDS: [u32; 9] = [0, 1, 2, 3, 65_535, 65_536, 1 << 31, u32::MAX - 1, u32::MAX];

fn lists(longest: usize) -> Vec<Vec<u32>> {
    let filled = (0..=longest).flat_map(|length| WORDS.map(|word| vec![word; length]));
    filled.chain([vec![0, 1, 2], vec![0, 0, 1, 2], vec![2, 1, 0]]).collect()
}

/// Each with its place, from 1.
pub fn tables() -> impl Iterator<Item = (usize, Tables)> {
    let mut all = Vec::new();
    for weights in lists(2) {
        for pred_starts in lists(3) {
            all.extend(lists(2).into_iter().map(|preds| Tables {
                weights: weights.clone(),
                pred_starts: pred_starts.clone(),
                preds: preds.into_iter().map(TaskId::new).collect(),
            }));
        }
    }
    (1..).zip(all)
}
