//! The readings of docs/DECISIONS.md on lengths, limits and begin.

use crate::board::{diamond, fetched, placed, refused, Board, HUGE, MARK};
use crate::diamond;
use engine_model::memory::{List, Memory, Step, NIL};

/// Worker i's completed buffer begins at i·N.
#[test]
fn the_buffer_of_a_worker_begins_at_its_number_times_n() {
    let mut board = Board::begun(&[1; 4], &[&[], &[], &[0], &[1]], 2, 4);
    board.execute(1, 1);
    assert_eq!(board.memory.buffers, [0, 0, 0, 0, 1, 0, 0, 0]);
    board.execute(0, 0);
    assert_eq!(board.memory.buffers, [0, 0, 0, 0, 1, 0, 0, 0]);
    assert_eq!(board.memory.rows, [[0, NIL, 1, 0, 1, 0], [0, NIL, 0, 0, 1, 0]]);
}

/// "The roots' limit becomes P·K": P·K roots fill each worker's own ring, whose tail comes round to its head; one more is refused
/// with their number. With P 16 and K 64 the most tasks there may be have room.
#[test]
fn as_many_roots_as_there_are_slots() {
    let roots = |count: usize, p, k| Board::new(&vec![1; count], &vec![&[][..]; count], p, k);
    for (p, k) in [
        (1, 2),
        (1, 3),
        (2, 2),
        (2, 4),
        (3, 2),
        (5, 7),
        (1, 64),
        (16, 2),
        (16, 63),
    ] {
        let mut board = roots(p * k, p, k);
        assert_eq!(board.begin(), Ok(()), "P {p} K {k}");
        for ring in 0..p * p {
            let own = ring % (p + 1) == 0;
            let expected = if own { [0, 0, k as u32] } else { [0; 3] };
            assert_eq!(board.memory.ends[3 * ring..][..3], expected, "P {p} K {k}");
            let filler = (ring % p) as u32;
            let dealt = (0..k as u32).map(|turn| if own { filler + turn * p as u32 } else { 0 });
            assert!(
                board.memory.rings[ring * k..][..k].iter().copied().eq(dealt),
                "P {p} K {k}"
            );
        }
        // one root less leaves the last slot of the last worker free
        let mut board = roots(p * k - 1, p, k);
        assert_eq!(board.begin(), Ok(()), "P {p} K {k}");
        let last = [0, k as u32 - 1, k as u32 - 1];
        assert_eq!(board.memory.ends[3 * (p * p - 1)..], last, "P {p} K {k}");
        let more = p * k + 1;
        assert_eq!(roots(more, p, k).begin(), refused(6, more as u32), "P {p} K {k}");
    }
    assert_eq!(roots(1_024, 16, 64).begin(), Ok(()));
    assert_eq!(roots(1_025, 16, 64).begin(), refused(2, 0));
}

/// All roots of full rings are fetched, each worker's in the order in which they were dealt.
#[test]
fn full_rings_are_fetched_from() {
    let mut board = Board::begun(&[1; 8], &[&[][..]; 8], 2, 4);
    for task in 0..8 {
        board.execute(task % 2, task);
    }
    assert_eq!(board.memory.run, [8, 24]);
    assert_eq!(board.memory.ends, [0; 12]);
}

/// Every begin and step checks the exact length of every list.
#[test]
fn every_length_is_exact() {
    for list in List::ALL {
        let right = diamond(2, 4).memory.length(list);
        for length in [0, right - 1, right + 1, 2 * right] {
            let mut board = diamond(2, 4);
            board.memory.lend(list, length, 0);
            assert_eq!(board.begin(), refused(1, 0), "{list:?} {length}");
            for step in Step::ALL {
                // 1 comes before 7, 8 and 9
                assert_eq!(board.step(0, step), refused(1, 0), "{list:?} {length}");
                assert_eq!(board.step(2, step), refused(1, 0), "{list:?} {length}");
            }
        }
    }
}

/// 2 is judged first, on the lengths of weights and predecessors, whatever the other lengths are.
#[test]
fn limits_come_before_lengths() {
    for (n, e, number) in [(1_025, 0, 2), (0, 8_193, 2), (1_025, 8_193, 2), (1_024, 8_192, 1)] {
        let memory = Memory {
            weights: vec![0; n],
            preds: vec![0; e],
            ..Memory::default()
        };
        let mut board = Board::of(memory, 16, 64);
        assert_eq!(board.begin(), refused(number, 0));
        for step in Step::ALL {
            assert_eq!(board.step(0, step), refused(number, 0));
        }
    }
}

/// "P from 1 to 16", "K from 2 to 64": with lists that fit.
#[test]
fn limits_have_both_ends() {
    for (p, k, fits) in [
        (1, 2, true),
        (16, 64, true),
        (1, 64, true),
        (16, 2, true),
        (0, 2, false),
        (17, 2, false),
        (1, 0, false),
        (1, 1, false),
        (1, 65, false),
    ] {
        let mut board = Board::new(&[1], &[&[]], p, k);
        let expected = if fits { Ok(()) } else { refused(2, 0) };
        assert_eq!(board.begin(), expected, "P {p} K {k}");
        let expected = if fits { fetched(0) } else { refused(2, 0) };
        assert_eq!(board.fetch(0), expected, "P {p} K {k}");
    }
    let mut board = diamond(2, 4);
    for (p, k) in [
        (usize::MAX, 4),
        (2, usize::MAX),
        (usize::MAX, usize::MAX),
        (1 << 32, 1 << 32),
    ] {
        assert_eq!(board.begin_with(p, k), refused(2, 0));
        assert_eq!(board.step_with(p, k, 0, Step::Fetch), refused(2, 0));
    }
}

/// A heavy weight is part of begin's 2, before 1; a step doesn't judge it there.
#[test]
fn a_heavy_weight_comes_before_lengths() {
    let mut board = diamond(2, 4).with(List::Weights, 3, 65_536);
    board.memory.run.pop();
    assert_eq!(board.begin(), refused(2, 0));
    assert_eq!(board.fetch(0), refused(1, 0));
    board.memory.run.push(0);
    assert_eq!(board.begin(), refused(2, 0));
    assert_eq!(board.fetch(0), fetched(0));
}

/// "A call with another P or K than begin's meets 2 or 1."
#[test]
fn another_p_or_k() {
    let mut board = diamond(2, 4);
    for (p, k, number) in [
        (1, 4, 1),
        (3, 4, 1),
        (2, 3, 1),
        (2, 5, 1),
        (1, 16, 1),
        (4, 2, 1),
        (17, 4, 2),
        (2, 1, 2),
    ] {
        assert_eq!(board.begin_with(p, k), refused(number, 0));
        for step in Step::ALL {
            assert_eq!(board.step_with(p, k, 0, step), refused(number, 0));
        }
    }
}

/// "a further accepted begin starts another run", in the middle of one too.
#[test]
fn a_begin_in_the_middle_starts_another_run() {
    let mut board = diamond(2, 4);
    board.execute(0, 0);
    assert_eq!(board.release(0), placed(1, 0));
    assert_eq!(board.fetch(0), fetched(1));
    assert_eq!(board.begin(), Ok(()));
    assert_eq!(board.memory, diamond::begun());
}

/// 3 names one minimum over bad ranges and bad predecessors.
#[test]
fn detail_of_3_is_one_minimum() {
    let mut board = Board::new(&[0; 3], &[&[], &[3], &[0]], 2, 4);
    assert_eq!(board.begin(), refused(3, 1));
    assert_eq!(board.with(List::PredStarts, 3, 9).begin(), refused(3, 1));
    assert_eq!(board.with(List::PredStarts, 1, 9).begin(), refused(3, 0));
}

/// "N for a wrong first or last start alone"
#[test]
fn a_wrong_first_or_last_start() {
    let lists: [&[u32]; 3] = [&[], &[0], &[0]];
    let board = Board::new(&[0; 3], &lists, 2, 4);
    assert_eq!(board.with(List::PredStarts, 3, 1).begin(), refused(3, 3));
    // start 0 of 1 is above start 1 of 0: task 0 is bad by itself
    assert_eq!(board.with(List::PredStarts, 0, 1).begin(), refused(3, 0));
    assert_eq!(
        Board::new(&[0; 2], &[&[0], &[]], 1, 2)
            .with(List::PredStarts, 0, 1)
            .begin(),
        refused(3, 2)
    );
    let both = board.with(List::PredStarts, 3, 1).with(List::Preds, 0, 3);
    assert_eq!(both.clone().begin(), refused(3, 1));
}

/// N 0 with E above 0: the last start isn't E, and N is 0.
#[test]
fn no_task_and_an_edge() {
    let memory = Memory::sized(vec![], vec![0], vec![0], 1, 2, MARK);
    assert_eq!(Board::of(memory, 1, 2).begin(), refused(3, 0));
}

/// 5 names a task on a cycle, not one before or behind it.
#[test]
fn detail_of_5_is_on_the_cycle() {
    // 0 behind the cycle of 2 and 3, 1 before it
    assert_eq!(
        Board::new(&[0; 4], &[&[2], &[], &[1, 3], &[2]], 2, 4).begin(),
        refused(5, 2)
    );
    assert_eq!(Board::new(&[0; 2], &[&[], &[1]], 2, 4).begin(), refused(5, 1));
}

/// "Order in begin: 2, 1, 3, 4, 5, 6."
#[test]
fn order_in_begin() {
    // task 0 loops on itself, 1 has a predecessor twice, 2 has one that is no task; 3, 4 and 5 are too many roots
    let lists: [&[u32]; 6] = [&[0], &[3, 3], &[6], &[], &[], &[]];
    let mut board = Board::new(&[0, 0, 0, 0, 65_536, 0], &lists, 1, 2);
    board.memory.rows.pop();
    assert_eq!(board.begin(), refused(2, 0));
    board.memory.weights[4] = 0;
    assert_eq!(board.begin(), refused(1, 0));
    board.memory.rows.push([MARK; 6]);
    assert_eq!(board.begin(), refused(3, 2));
    board.memory.preds[3] = 4;
    assert_eq!(board.begin(), refused(4, 1));
    board.memory.preds[2] = 4;
    assert_eq!(board.begin(), refused(5, 0));
    board.memory.preds[0] = 3;
    assert_eq!(board.begin(), refused(6, 3));
}

/// "A run starts at an accepted begin, whatever its lists held outside weights and predecessor tables."
#[test]
fn begin_judges_no_other_word() {
    for fill in [0, 1, 3, NIL, 1 << 31, HUGE] {
        let from = diamond::begun();
        let memory = Memory::sized(from.weights, from.pred_starts, from.preds, 2, 4, fill);
        let mut board = Board::of(memory, 2, 4);
        assert_eq!(board.begin(), Ok(()));
        assert_eq!(board.memory, diamond::begun());
    }
}
