//! The words of the diamond, 1 and 2 after 0 and 3 after 1 and 2, for P 2 and K 4.

use engine_model::memory::{Memory, NIL};

/// As begin lays them down.
pub fn begun() -> Memory {
    Memory {
        weights: vec![0, 5, 3, 0],
        pred_starts: vec![0, 0, 1, 2, 4],
        preds: vec![0, 0, 1, 2],
        succ_starts: vec![0, 2, 3, 4, 4],
        succs: vec![1, 2, 3, 3],
        degrees: vec![0, 1, 1, 2],
        rings: vec![0; 16],
        // head, tail and count of each ring
        ends: vec![0, 1, 1, 0, 0, 0, 0, 0, 0, 0, 0, 0],
        counters: vec![0; 4],
        buffers: vec![0; 8],
        executed: vec![0; 8],
        run: vec![0, 0],
        rows: vec![[0, NIL, 0, 0, 0, 0]; 2],
    }
}

/// At the end, after the desk program's turns.
pub fn finished() -> Memory {
    Memory {
        degrees: vec![0; 4],
        // owner 0: filled by 0 with tasks 0, 1, 3; owner 1: filled by 0 with task 2
        rings: vec![0, 1, 3, 0, 0, 0, 0, 0, 2, 0, 0, 0, 0, 0, 0, 0],
        ends: vec![3, 3, 0, 0, 0, 0, 1, 1, 0, 0, 0, 0],
        counters: vec![0, 0, 3, -3],
        buffers: vec![0, 1, 0, 0, 2, 0, 0, 0],
        executed: vec![0, 0, 2, 1, 1, 0, 3, 0],
        run: vec![4, 16],
        rows: vec![[0, NIL, 1, 2, 2, 0], [0, NIL, 1, 1, 1, 0]],
        ..begun()
    }
}
