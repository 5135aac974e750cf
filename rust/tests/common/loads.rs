//! Load windows beside the model, whatever they are.

use engine_model::draw::Draw;
use engine_model::engine::MODEL;
use engine_model::loads::{self, compare, compare_with, Counts, Lent, Windows, ANSWERS};
use engine_model::measured;
use engine_model::runs::{next_case, Case};

/// Lent lists of so many seeds, with every m; each answer comes often.
pub fn drawn_lists(side: Windows, first: u64, count: u64) {
    let mut counts = Counts::new();
    for seed in first..first + count {
        compare(side, &loads::drawn(seed), &mut counts);
    }
    let answers: Vec<u32> = counts.keys().copied().collect();
    assert_eq!(answers, ANSWERS, "{counts:?}");
    assert!(counts.values().all(|&times| times >= count as usize), "{counts:?}");
}

/// Every state of honest runs, with every m: with begin's P never 8.
pub fn honest_runs(side: Windows, first: u64, count: u64) {
    let mut counts = Counts::new();
    let cases = (first..first + count).map(next_case).filter(Case::is_honest);
    for case in cases.filter(|case| case.memory.n() <= 12) {
        let Case {
            mut memory,
            p,
            k,
            calls,
        } = case;
        if (MODEL.begin)(&mut memory, p, k).is_err() {
            continue;
        }
        let mut entries = u32::MAX;
        for call in calls {
            call.make(&MODEL, &mut memory);
            if memory.run[0] != entries {
                entries = memory.run[0];
                compare(side, &Lent::of(&memory, p), &mut counts);
            }
        }
    }
    let answers: Vec<u32> = counts.keys().copied().collect();
    assert_eq!(answers, [0, 1, 15], "{counts:?}");
    assert!(counts[&0] >= 500, "{counts:?}");
}

/// N and P at their limits and beyond.
pub fn limits(side: Windows) {
    let mut counts = Counts::new();
    for lent in loads::limits() {
        compare_with(side, &lent, [0, 1, 2, 31, 1_023, 1_024, 1_025, usize::MAX], &mut counts);
    }
    let draw = &mut Draw::new(900);
    for _ in 0..4 {
        let lent = loads::forged(draw, 1_024);
        compare_with(side, &lent, [1, 2, 32, 512], &mut counts);
    }
    let answers: Vec<u32> = counts.keys().copied().collect();
    assert_eq!(answers, ANSWERS, "{counts:?}");
}

/// The record that load windows are measured on.
pub fn the_measured_record(side: Windows) {
    let mut counts = Counts::new();
    for tasks in [64, 256, 1_024] {
        let lent = measured::record(tasks, 4);
        assert_eq!((lent.weights.len(), lent.run[0] as usize), (tasks, tasks));
        compare_with(side, &lent, measured::WINDOWS, &mut counts);
    }
    // 64 and 256 entries have no window of 512
    assert_eq!(counts[&0], 7, "{counts:?}");
}
