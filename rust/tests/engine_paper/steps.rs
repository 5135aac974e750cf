//! The readings of docs/DECISIONS.md on the steps.

use crate::board::{
    degree_left, diamond, fetched, fork, fork_to_release, join_to_release, placed, refused, trident_to_release, Board,
    HUGE, LIMIT, MOVED,
};
use engine_model::memory::{List, Step, ACCEPTED, CURSOR, ENTRIES, HELD, NIL, PHASE, POINTER, READ, WRITE};

/// "Take its head, which becomes the held task; the slot's word stays. […] The pointer becomes the ring after, modulo P." The
/// weight stays in its counter.
#[test]
fn what_fetch_writes() {
    let mut board = fork_to_release(2, 4).with_counter(0, 0, 9);
    // sums 9 and 0: task 1 goes to owner 1, into its ring that worker 0 fills, number 1·2 + 0
    assert_eq!(board.release(0), placed(1, 1));
    let before = board.memory.clone();
    assert_eq!(board.fetch(1), fetched(1));
    let mut expected = before;
    // ring 2: the head goes from 0 to 1, the count from 1 to 0
    expected.ends[6..9].copy_from_slice(&[1, 1, 0]);
    expected.run[ACCEPTED] += 1;
    expected.rows[1] = [1, 1, 1, 0, 0, 0];
    assert_eq!(board.memory, expected);
}

/// Pointer ≥ P with all rings empty is 8; a bad accepted word with all rings empty is 10, and so is a bad slot.
#[test]
fn fetch_with_all_rings_empty() {
    let board = fork(2, 4);
    assert_eq!(board.with_row(1, POINTER, 2).fetch(1), refused(8, 0));
    assert_eq!(board.with(List::Run, ACCEPTED, HUGE).fetch(1), refused(10, 0));
    assert_eq!(board.with(List::Rings, 8, HUGE).fetch(1), refused(10, 0));
    // a bad head, tail or count of a ring that is scanned, and of the rings of worker 0, which aren't
    for place in 0..12 {
        let expected = if place < 6 { refused(10, 0) } else { refused(8, 0) };
        assert_eq!(board.with(List::Ends, place, 5).fetch(1), expected, "{place}");
    }
}

/// The scan goes from the pointer upward, modulo P, and reads no ends behind the first ring that isn't empty.
#[test]
fn fetch_scans_from_the_pointer() {
    // worker 0 owns rings 0, 1 and 2, filled by 0, 1 and 2: slots from 0, 4 and 8
    let mut board = Board::begun(&[1; 6], &[&[][..]; 6], 3, 4);
    board.memory.rings[4] = 4;
    board.memory.rings[8] = 5;
    let board = board.with_ends(1, [0, 1, 1]).with_ends(2, [0, 1, 1]);
    for (pointer, task, next) in [(0, 0, 1), (1, 4, 2), (2, 5, 0)] {
        let mut each = board.with_row(0, POINTER, pointer);
        assert_eq!(each.fetch(0), fetched(task));
        assert_eq!(each.memory.rows[0][POINTER], next);
        let behind = (pointer as usize + 1) % 3;
        assert_eq!(
            board
                .with_row(0, POINTER, pointer)
                .with_ends(behind, [HUGE; 3])
                .fetch(0),
            fetched(task)
        );
    }
    // ring 2 empty: from pointer 2 on to ring 0
    let empty = board.with_ends(2, [1, 1, 0]).with_row(0, POINTER, 2);
    let mut wrapped = empty.clone();
    assert_eq!(wrapped.fetch(0), fetched(0));
    assert_eq!(wrapped.memory.rows[0][POINTER], 1);
    // its ends and those of ring 2 are read, those of ring 1 aren't
    for word in 0..3 {
        assert_eq!(empty.with(List::Ends, word, HUGE).fetch(0), refused(8, 0));
        assert_eq!(empty.with(List::Ends, 6 + word, HUGE).fetch(0), refused(8, 0));
        assert_eq!(empty.with(List::Ends, 3 + word, HUGE).fetch(0), fetched(0));
    }
}

/// "A task with p tasks ahead of it in its ring is therefore taken within (p+1)·P accepted fetches of its owner."
#[test]
fn fetch_goes_round_the_rings() {
    let mut board = Board::begun(&[1; 9], &[&[][..]; 9], 3, 4);
    // the rings of owner 0 hold 0, 3, 6; 1, 4, 7; 2, 5, 8
    board.memory.rings[4..7].copy_from_slice(&[1, 4, 7]);
    board.memory.rings[8..11].copy_from_slice(&[2, 5, 8]);
    board.memory.ends[..9].copy_from_slice(&[0, 3, 3, 0, 3, 3, 0, 3, 3]);
    for task in 0..9 {
        assert_eq!(board.with_row(0, HELD, HUGE).fetch(0), fetched(task));
        board.execute(0, task);
    }
}

/// "From now on the weight leaves counter (i, i) at Complete": Fetch reads neither weight nor counter.
#[test]
fn fetch_reads_no_weight_and_no_counter() {
    let mut board = fork(2, 4);
    board.memory.weights.fill(HUGE);
    board.memory.counters.fill(i32::MIN);
    let mut expected = board.memory.clone();
    assert_eq!(board.fetch(0), fetched(0));
    expected.ends[..3].copy_from_slice(&[1, 1, 0]);
    expected.run[ACCEPTED] = 1;
    expected.rows[0] = [1, 0, 1, 0, 0, 0];
    assert_eq!(board.memory, expected);
}

/// The old held word isn't read by Fetch.
#[test]
fn fetch_does_not_read_the_held_word() {
    for word in [0, 3, NIL, HUGE] {
        let mut board = fork(2, 4).with_row(0, HELD, word);
        assert_eq!(board.fetch(0), fetched(0));
        assert_eq!(board.memory.rows[0][HELD], 0);
    }
}

/// "counter beyond ±2^30" is judged on the word read, not on the result.
#[test]
fn the_new_counter_is_not_judged() {
    let mut board = fork(2, 4).with_counter(0, 0, -LIMIT).with(List::Weights, 0, 65_535);
    board.execute(0, 0);
    assert_eq!(board.memory.counters[0], -LIMIT - 65_535);
    let counters = fork_to_release(1, 4).with_counter(0, 0, LIMIT);
    let mut board = counters.with(List::Weights, 1, 65_535);
    assert_eq!(board.release(0), placed(1, 0));
    assert_eq!(board.memory.counters[0], LIMIT + 65_535);
}

/// Start: "the phase alone"; a held NIL isn't looked at.
#[test]
fn start_reads_the_phase_alone() {
    let mut board = fork(2, 4).with_row(0, PHASE, 1);
    board.memory.rows[0] = [1, NIL, HUGE, HUGE, HUGE, HUGE];
    board.memory.rings.fill(HUGE);
    board.memory.ends.fill(HUGE);
    board.memory.counters.fill(i32::MIN);
    board.memory.run[ENTRIES] = HUGE;
    let mut expected = board.memory.clone();
    assert_eq!(board.start(0), MOVED);
    expected.rows[0][PHASE] = 2;
    expected.run[ACCEPTED] = 1;
    assert_eq!(board.memory, expected);
}

/// "Complete meets 12 before its other words".
#[test]
fn complete_meets_12_first() {
    let full = fork(2, 4).with_row(0, PHASE, 2).with(List::Run, ENTRIES, 3);
    assert_eq!(full.with_row(0, HELD, HUGE).complete(0), refused(12, 0));
    assert_eq!(full.with(List::Run, ACCEPTED, HUGE).complete(0), refused(12, 0));
    assert_eq!(full.with(List::SuccStarts, 0, HUGE).complete(0), refused(12, 0));
    assert_eq!(full.with_counter(0, 0, i32::MIN).complete(0), refused(12, 0));
    let heavy = full.with_row(0, HELD, 0).with(List::Weights, 0, HUGE);
    assert_eq!(heavy.clone().complete(0), refused(12, 0));
    assert_eq!(full.with_row(0, READ, HUGE).complete(0), refused(12, 0));
    assert_eq!(
        full.with(List::Run, ENTRIES, 4).with_row(0, HELD, HUGE).complete(0),
        refused(8, 0)
    );
}

/// "(task, i) joins the record; the task joins i's completed buffer if it has successors; held becomes NIL." "the weight leaves
/// counter (i, i)", here number 1·2 + 1 with the 5 of task 1 from begin.
#[test]
fn what_complete_writes() {
    let mut board = Board::begun(&[4, 5, 6, 7], &[&[], &[], &[], &[1]], 2, 4);
    assert_eq!(board.fetch(1), fetched(1));
    assert_eq!(board.start(1), MOVED);
    let mut expected = board.memory.clone();
    assert_eq!(expected.counters, [4 + 6, 0, 0, 5]);
    assert_eq!(board.complete(1), MOVED);
    expected.counters[3] = 0;
    expected.executed[..2].copy_from_slice(&[1, 1]);
    expected.buffers[4] = 1;
    expected.run = vec![1, 3];
    expected.rows[1] = [0, NIL, 0, 0, 1, 0];
    assert_eq!(board.memory, expected);
}

/// The weight leaves for a task without successors too, and from counter (i, i), "which may go below zero", though it joined
/// another one.
#[test]
fn the_weight_leaves_the_own_counter() {
    let mut board = fork_to_release(2, 4).with_counter(0, 0, 9);
    // sums 9 and 0: task 1 goes to owner 1, into its ring that worker 0 fills
    assert_eq!(board.release(0), placed(1, 1));
    assert_eq!(board.memory.counters, [9, 0, 5, 0]);
    assert_eq!(board.fetch(1), fetched(1));
    assert_eq!(board.start(1), MOVED);
    let mut expected = board.memory.clone();
    assert_eq!(expected.counters, [9, 0, 5, 0]);
    assert_eq!(board.complete(1), MOVED);
    expected.counters[3] = -5;
    expected.executed[2..4].copy_from_slice(&[1, 1]);
    expected.run = vec![2, 7];
    expected.rows[1] = [0, NIL, 1, 0, 0, 0];
    assert_eq!(board.memory, expected);
}

/// Complete reads counter (i, i) and the weight of the held task, and no other counter and no other weight.
#[test]
fn complete_reads_one_weight_and_one_counter() {
    let mut board = fork(2, 4).with_row(0, PHASE, 2).with_row(0, HELD, 0);
    board.memory.weights = vec![4, HUGE, HUGE];
    board.memory.counters = vec![LIMIT, i32::MAX, i32::MIN, i32::MAX];
    assert_eq!(board.with_counter(0, 0, LIMIT + 1).complete(0), refused(8, 0));
    assert_eq!(board.with(List::Weights, 0, 65_536).complete(0), refused(8, 0));
    assert_eq!(board.complete(0), MOVED);
    assert_eq!(board.memory.counters, [LIMIT - 4, i32::MAX, i32::MIN, i32::MAX]);
}

/// The buffer places are read only if the task has successors, and successor words not at all.
#[test]
fn complete_reads_the_places_only_for_successors() {
    let board = fork(2, 4).with_row(0, PHASE, 2);
    for (read, write) in [(0, 3), (2, 1), (HUGE, HUGE)] {
        let mut last = board
            .with_row(0, HELD, 1)
            .with_row(0, READ, read)
            .with_row(0, WRITE, write);
        assert_eq!(last.complete(0), MOVED);
        assert_eq!(last.memory.rows[0], [0, NIL, 0, read, write, 0]);
        assert_eq!(last.memory.buffers, [0; 6]);
    }
    let mut first = board.with_row(0, HELD, 0);
    first.memory.succs.fill(HUGE);
    assert_eq!(first.complete(0), MOVED);
}

/// Both places are read before 10, and nothing else is.
#[test]
fn release_with_an_empty_buffer() {
    let board = fork_to_release(2, 4);
    let empty = board.with_row(0, READ, 1);
    assert_eq!(empty.clone().release(0), refused(10, 0));
    assert_eq!(empty.with_row(0, READ, 2).release(0), refused(8, 0));
    assert_eq!(
        empty.with_row(0, READ, 4).with_row(0, WRITE, 4).release(0),
        refused(8, 0)
    );
    let mut bad = empty.with_row(0, CURSOR, HUGE).with(List::Run, ACCEPTED, HUGE);
    bad.memory.buffers.fill(HUGE);
    bad.memory.succs.fill(HUGE);
    bad.memory.degrees.fill(HUGE);
    bad.memory.counters.fill(i32::MIN);
    assert_eq!(bad.release(0), refused(10, 0));
}

/// A buffered task with an empty successor range: the cursor isn't below the count of 0.
#[test]
fn release_of_a_task_without_successors() {
    assert_eq!(
        fork_to_release(2, 4).with(List::Buffers, 0, 1).release(0),
        refused(8, 0)
    );
}

/// Where the degree stays above 0, no weight, counter or end is read; the degree N is fine.
#[test]
fn release_that_leaves_a_degree_reads_no_counter() {
    let mut board = join_to_release(1, 4).with(List::Weights, 2, HUGE);
    board.memory.counters.fill(i32::MIN);
    board.memory.ends.fill(HUGE);
    board.memory.rings.fill(HUGE);
    let mut expected = board.memory.clone();
    assert_eq!(board.release(0), degree_left(1));
    // the only successor of task 0: the cursor stays 0 and the read place advances
    expected.degrees[2] = 1;
    expected.run[ACCEPTED] += 1;
    expected.rows[0][READ] = 1;
    assert_eq!(board.memory, expected);
    assert_eq!(board.with_counter(0, 0, 0).release(0), refused(8, 0));
}

/// "11 comes after the words that it reads": a bad counter with all rings full is 8. A heavy weight or a bad accepted word
/// with all rings full is 11, since no ring is used.
#[test]
fn release_with_all_rings_full() {
    let mut board = trident_to_release(1, 2);
    assert_eq!(board.release(0), placed(1, 0));
    assert_eq!(board.release(0), placed(2, 0));
    assert_eq!(board.release(0), refused(11, 3));
    assert_eq!(board.with_counter(0, 0, LIMIT + 1).release(0), refused(8, 0));
    for (place, word) in [(0, 2), (1, 2), (2, 3)] {
        assert_eq!(board.with(List::Ends, place, word).release(0), refused(8, 0));
    }
    assert_eq!(board.with(List::Degrees, 3, 0).release(0), refused(8, 0));
    assert_eq!(board.with(List::Weights, 3, HUGE).release(0), refused(11, 3));
    assert_eq!(board.with(List::Run, ACCEPTED, HUGE).release(0), refused(11, 3));
    assert_eq!(board.with(List::Degrees, 3, 2).release(0), degree_left(1));
}

/// All P rings' ends have been read for 11; else ends behind the first ring that isn't full aren't read.
#[test]
fn release_reads_ends_up_to_the_ring_used() {
    // worker 0 fills rings 0, 3 and 6 of the owners 0, 1 and 2; the sums are 0, 7 and 0, so the target is 0
    let board = fork_to_release(3, 2).with_counter(1, 1, 7);
    let first_full = board.with_ends(0, [1, 1, 2]);
    let two_full = first_full.with_ends(3, [0, 0, 2]);
    let all_full = two_full.with_ends(6, [1, 1, 2]);
    let boards = [board, first_full, two_full, all_full];
    for (full, board) in boards.into_iter().enumerate() {
        let answer = [placed(1, 0), placed(1, 1), placed(1, 2), refused(11, 1)][full];
        assert_eq!(board.clone().release(0), answer);
        for (passed, ring) in [0, 3, 6].into_iter().enumerate() {
            let expected = if passed <= full { refused(8, 0) } else { answer };
            // each word alone: a head, a tail or a count over K
            for word in 0..3 {
                assert_eq!(
                    board.with(List::Ends, 3 * ring + word, 3).release(0),
                    expected,
                    "{full} full, {ring}"
                );
            }
        }
    }
}

/// The slot at the tail is only written.
#[test]
fn release_does_not_read_the_slot_at_the_tail() {
    let mut board = fork_to_release(2, 4);
    board.memory.rings.fill(HUGE);
    assert_eq!(board.release(0), placed(1, 0));
    assert_eq!(board.memory.rings[..3], [HUGE, 1, HUGE]);
}

/// "s is appended to the first ring filled by i that isn't full, owners taken j, j+1, … modulo P. The weight joins the
/// counter of the ring really used."
#[test]
fn the_weight_joins_the_counter_of_the_ring_used() {
    // the target is worker 2 with −1; its ring filled by 0, number 6, is full, and that of the next owner, 0, isn't
    let board = fork_to_release(3, 2).with_counter(2, 1, -1).with_ends(6, [0, 0, 2]);
    let mut wrapped = board.clone();
    let mut expected = board.memory.clone();
    assert_eq!(wrapped.release(0), placed(1, 0));
    expected.degrees[1] = 0;
    expected.rings[1] = 1;
    expected.ends[..3].copy_from_slice(&[1, 0, 1]);
    expected.counters[0] += 5;
    expected.run[ACCEPTED] += 1;
    expected.rows[0][CURSOR] = 1;
    assert_eq!(wrapped.memory, expected);
}

/// "the worker with the least sum of its P counters, the lowest number on equal sums"
#[test]
fn the_target_has_the_least_sum() {
    let owners = |sums: [i32; 3]| {
        let mut board = fork_to_release(3, 4);
        for (worker, &sum) in sums.iter().enumerate() {
            // split over the three counters of the worker
            for (filler, part) in [sum - 20, 13, 7].into_iter().enumerate() {
                board = board.with_counter(worker, filler, part);
            }
        }
        board.release(0)
    };
    assert_eq!(owners([0, 0, 0]), placed(1, 0));
    assert_eq!(owners([1, 0, 0]), placed(1, 1));
    assert_eq!(owners([1, 1, 0]), placed(1, 2));
    assert_eq!(owners([-1, 0, 0]), placed(1, 0));
    assert_eq!(owners([5, -3, -3]), placed(1, 1));
    assert_eq!(owners([5, -3, -4]), placed(1, 2));
}

/// Sums of counters need more than 32 bits: 4 · 2^30 is 2^32, and would be 0 in 32 bits.
#[test]
fn sums_beyond_32_bits() {
    let mut board = fork_to_release(4, 4);
    board.memory.counters = [[LIMIT; 4], [1, 1, 1, 2], [LIMIT; 4], [0, 0, 6, 0]].concat();
    assert_eq!(board.release(0), placed(1, 1));
    let mut board = fork_to_release(16, 2);
    board.memory.counters = vec![0; 256];
    board.memory.counters[240..].fill(-LIMIT);
    board.memory.counters[16..32].fill(LIMIT);
    assert_eq!(board.release(0), placed(1, 15));
}

/// "The cursor advances; after the last successor it returns to 0 and the read place advances."
#[test]
fn the_cursor_and_the_read_place() {
    let mut board = fork_to_release(1, 4);
    assert_eq!(board.memory.rows[0], [0, NIL, 0, 0, 1, 0]);
    assert_eq!(board.release(0), placed(1, 0));
    assert_eq!(board.memory.rows[0], [0, NIL, 0, 0, 1, 1]);
    assert_eq!(board.release(0), placed(2, 0));
    assert_eq!(board.memory.rows[0], [0, NIL, 0, 1, 1, 0]);
    assert_eq!(board.release(0), refused(10, 0));
}

/// A finished run holds 3N+E in the accepted word; it is read last, so only 9 and 10 are met.
#[test]
fn a_finished_run_meets_9_and_10_alone() {
    let mut board = fork_to_release(2, 4);
    assert_eq!(board.release(0), placed(1, 0));
    assert_eq!(board.release(0), placed(2, 1));
    board.execute(0, 1);
    board.execute(1, 2);
    assert_eq!(board.memory.run, [3, 11]);
    for worker in 0..2 {
        assert_eq!(board.fetch(worker), refused(10, 0));
        assert_eq!(board.release(worker), refused(10, 0));
        assert_eq!(board.start(worker), refused(9, 0));
        assert_eq!(board.complete(worker), refused(9, 0));
    }
}

/// 7 answers the number that was handed in, however large; cut to 8 or 16 bits these would be worker 0.
#[test]
fn worker_numbers_are_32_bits() {
    let mut board = diamond(2, 4);
    for worker in [2, 256, 65_535, 65_536, 1 << 31, HUGE] {
        for step in Step::ALL {
            assert_eq!(board.step(worker, step), refused(7, worker));
        }
    }
}

/// "In a step: 2, 1, 7, phase word (8), 9; then the step's rule".
#[test]
fn order_in_a_step() {
    let mut board = fork(2, 4).with_row(0, PHASE, 3);
    board.memory.run.push(0);
    assert_eq!(board.step_with(17, 4, 17, Step::Complete), refused(2, 0));
    assert_eq!(board.complete(2), refused(1, 0));
    board.memory.run.pop();
    assert_eq!(board.complete(2), refused(7, 2));
    assert_eq!(board.complete(0), refused(8, 0));
    // 9 comes before every word of the rule
    let mut bad = board
        .with_row(0, PHASE, 1)
        .with(List::Run, ENTRIES, HUGE)
        .with(List::Run, ACCEPTED, HUGE);
    bad.memory.rows[0][1..].fill(HUGE);
    for step in [Step::Fetch, Step::Complete, Step::Release] {
        assert_eq!(bad.step(0, step), refused(9, 1));
    }
}

/// No step reads the predecessor tables or another worker's row.
#[test]
fn steps_read_no_predecessor_and_no_other_row() {
    let mut board = fork(2, 4);
    board.memory.pred_starts.fill(HUGE);
    board.memory.preds.fill(HUGE);
    board.memory.rows[1] = [HUGE; 6];
    board.execute(0, 0);
    assert_eq!(board.release(0), placed(1, 0));
    assert_eq!(board.release(0), placed(2, 1));
    board.execute(0, 1);
    assert_eq!(board.memory.rows[1], [HUGE; 6]);
}
