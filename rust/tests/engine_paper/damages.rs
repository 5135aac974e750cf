//! Damaged words, row by row, each with the word beside it that is fine.

use crate::board::{degree_left, fetched, fork, fork_to_release, placed, refused, Board, HUGE, LIMIT, MOVED};
use engine_model::memory::{List, Step, ACCEPTED, CURSOR, ENTRIES, HELD, NIL, PHASE, POINTER, READ, WRITE};

/// "head or tail ≥ K"
#[test]
fn damaged_head_or_tail() {
    // both sums are 0, so the target of the Release is worker 0
    let (to_fetch, to_release) = (fork(2, 4), fork_to_release(2, 4));
    for end in [0, 1] {
        for word in [4, 5, HUGE] {
            assert_eq!(to_fetch.with(List::Ends, end, word).fetch(0), refused(8, 0));
            assert_eq!(to_release.with(List::Ends, end, word).release(0), refused(8, 0));
        }
    }
    // head plus count leads to tail, and one of them is no slot
    for ends in [[4, 1, 1], [5, 2, 1], [0, 4, 4], [3, 4, 1], [4, 4, 0]] {
        assert_eq!(to_fetch.with_ends(0, ends).fetch(0), refused(8, 0), "{ends:?}");
        assert_eq!(to_release.with_ends(0, ends).release(0), refused(8, 0), "{ends:?}");
    }
    // head 0, tail 3: three tasks wait; head 3, tail 3: none
    assert_eq!(to_fetch.with_ends(0, [0, 3, 3]).fetch(0), fetched(0));
    assert_eq!(to_release.with_ends(0, [0, 3, 3]).release(0), placed(1, 0));
    assert_eq!(to_release.with_ends(0, [3, 3, 0]).release(0), placed(1, 0));
}

/// The slot that this many slots lead to, one after the other, of the four of a ring.
fn led_to(head: u32, count: u32) -> u32 {
    (0..count).fold(head, |slot, _| if slot == 3 { 0 } else { slot + 1 })
}

/// "A count over K, or head plus count not leading to tail modulo K, is damaged": each head and tail below K, 4 here, with counts
/// up to K and over it. "empty is count 0, full is count K".
#[test]
fn damaged_count() {
    let to_fetch = [1, 2, 1]
        .into_iter()
        .zip(1..)
        .fold(fork(2, 4), |board, (task, slot)| board.with(List::Rings, slot, task));
    let slots = [0, 1, 2, 1];
    for (head, tail) in (0..4).flat_map(|head| (0..4).map(move |tail| (head, tail))) {
        for count in [0, 1, 2, 3, 4, 5, 6, 7, 8, 65_535, 65_536, HUGE - 1, HUGE] {
            let ends = [head, tail, count];
            let sound = count <= 4 && led_to(head, count) == tail;
            let (mut fetching, mut releasing) = (to_fetch.with_ends(0, ends), fork_to_release(2, 4).with_ends(0, ends));
            let (first, placed_at) = (fetching.fetch(0), releasing.release(0));
            match count {
                _ if !sound => assert_eq!((first, placed_at), (refused(8, 0), refused(8, 0)), "{ends:?}"),
                // the other ring of worker 0 is empty too
                0 => assert_eq!((first, placed_at), (refused(10, 0), placed(1, 0)), "{ends:?}"),
                // the ring of the next owner takes the task
                4 => assert_eq!(
                    (first, placed_at),
                    (fetched(slots[head as usize]), placed(1, 1)),
                    "{ends:?}"
                ),
                _ => assert_eq!(
                    (first, placed_at),
                    (fetched(slots[head as usize]), placed(1, 0)),
                    "{ends:?}"
                ),
            }
            if sound && count > 0 {
                assert_eq!(
                    fetching.memory.ends[..3],
                    [led_to(head, 1), tail, count - 1],
                    "{ends:?}"
                );
            }
            if sound && count < 4 {
                assert_eq!(
                    releasing.memory.ends[..3],
                    [head, led_to(tail, 1), count + 1],
                    "{ends:?}"
                );
                assert_eq!(releasing.memory.rings[tail as usize], 1, "{ends:?}");
            }
        }
    }
}

/// Head and tail at one slot: a count of 0 or K is sound, and no other. Where they differ, neither is.
#[test]
fn damaged_count_of_an_empty_or_a_full_ring() {
    for count in [0, 2] {
        for (head, tail) in [(0, 1), (1, 0)] {
            assert_eq!(fork(1, 2).with_ends(0, [head, tail, count]).fetch(0), refused(8, 0));
            let mut board = fork_to_release(1, 2).with_ends(0, [head, tail, count]);
            assert_eq!(board.release(0), refused(8, 0));
        }
    }
    for slot in [0, 1] {
        for count in [1, 3, 4, HUGE] {
            assert_eq!(fork(1, 2).with_ends(0, [slot, slot, count]).fetch(0), refused(8, 0));
            let mut board = fork_to_release(1, 2).with_ends(0, [slot, slot, count]);
            assert_eq!(board.release(0), refused(8, 0));
        }
        assert_eq!(fork(1, 2).with_ends(0, [slot, slot, 0]).fetch(0), refused(10, 0));
        assert_eq!(fork(1, 2).with_ends(0, [slot, slot, 2]).fetch(0), fetched(0));
        assert_eq!(
            fork_to_release(1, 2).with_ends(0, [slot, slot, 0]).release(0),
            placed(1, 0)
        );
        assert_eq!(
            fork_to_release(1, 2).with_ends(0, [slot, slot, 2]).release(0),
            refused(11, 1)
        );
    }
}

/// "ring, buffer, held or successor word ≥ N"
#[test]
fn damaged_task_words() {
    for word in [3, 4, NIL, HUGE] {
        assert_eq!(fork(2, 4).with(List::Rings, 0, word).fetch(0), refused(8, 0));
        let held = fork(2, 4).with_row(0, PHASE, 2).with_row(0, HELD, word).complete(0);
        assert_eq!(held, refused(8, 0));
        assert_eq!(
            fork_to_release(2, 4).with(List::Buffers, 0, word).release(0),
            refused(8, 0)
        );
        assert_eq!(
            fork_to_release(2, 4).with(List::Succs, 0, word).release(0),
            refused(8, 0)
        );
    }
    assert_eq!(fork(2, 4).with(List::Rings, 0, 2).fetch(0), fetched(2));
    assert_eq!(fork(2, 4).with_row(0, PHASE, 2).with_row(0, HELD, 2).complete(0), MOVED);
    assert_eq!(fork_to_release(2, 4).with(List::Succs, 0, 2).release(0), placed(2, 0));
}

/// "phase over 2": before 9, for every step.
#[test]
fn damaged_phase() {
    for step in Step::ALL {
        for word in [3, 4, HUGE] {
            assert_eq!(fork(2, 4).with_row(0, PHASE, word).step(0, step), refused(8, 0));
        }
    }
}

/// "pointer ≥ P"
#[test]
fn damaged_pointer() {
    for word in [2, 3, HUGE] {
        assert_eq!(fork(2, 4).with_row(0, POINTER, word).fetch(0), refused(8, 0));
    }
    assert_eq!(fork(2, 4).with_row(0, POINTER, 1).fetch(0), fetched(0));
}

/// Worker 0 runs task 0, which has successors, and task 1, which has none.
fn boards_to_complete() -> [Board; 2] {
    [0, 1].map(|task| fork(2, 4).with_row(0, PHASE, 2).with_row(0, HELD, task))
}

/// "counter beyond ±2^30": a bad counter (i, i) is accepted at Fetch and met at Complete.
#[test]
fn damaged_counter() {
    for value in [LIMIT + 1, -LIMIT - 1, i32::MAX, i32::MIN] {
        let mut board = fork(2, 4).with_counter(0, 0, value);
        assert_eq!(board.fetch(0), fetched(0));
        assert_eq!(board.start(0), MOVED);
        assert_eq!(board.complete(0), refused(8, 0));
        for board in boards_to_complete() {
            assert_eq!(board.with_counter(0, 0, value).complete(0), refused(8, 0));
        }
        for (owner, filler) in [(0, 0), (0, 1), (1, 0), (1, 1)] {
            let mut board = fork_to_release(2, 4).with_counter(owner, filler, value);
            assert_eq!(board.release(0), refused(8, 0));
        }
    }
    for value in [LIMIT, -LIMIT] {
        for board in boards_to_complete() {
            assert_eq!(board.with_counter(0, 0, value).complete(0), MOVED);
        }
        let owner = if value < 0 { 0 } else { 1 };
        assert_eq!(
            fork_to_release(2, 4).with_counter(0, 1, value).release(0),
            placed(1, owner)
        );
    }
}

/// "degree to be lowered outside 1..N", N 3 here.
#[test]
fn damaged_degree() {
    for word in [0, 4, HUGE] {
        assert_eq!(
            fork_to_release(2, 4).with(List::Degrees, 1, word).release(0),
            refused(8, 0)
        );
    }
    assert_eq!(
        fork_to_release(2, 4).with(List::Degrees, 1, 3).release(0),
        degree_left(2)
    );
}

/// "buffer places (where one is read, both are) not read ≤ write ≤ N, or write N where a task must join", N 3 here.
#[test]
fn damaged_buffer_places() {
    let to_complete = fork(2, 4).with_row(0, PHASE, 2).with_row(0, HELD, 0);
    let to_release = fork_to_release(2, 4);
    for (read, write) in [
        (1, 0),
        (2, 1),
        (0, 4),
        (4, 4),
        (4, 3),
        (HUGE, 0),
        (0, HUGE),
        (HUGE, HUGE),
    ] {
        for board in [&to_complete, &to_release] {
            let mut board = board.with_row(0, READ, read).with_row(0, WRITE, write);
            let answer = if board.memory.rows[0][PHASE] == 2 {
                board.complete(0)
            } else {
                board.release(0)
            };
            assert_eq!(answer, refused(8, 0), "{read} {write}");
        }
    }
    for (read, write) in [(0, 3), (3, 3)] {
        let mut board = to_complete.with_row(0, READ, read).with_row(0, WRITE, write);
        assert_eq!(board.complete(0), refused(8, 0));
    }
    let mut last = to_complete.with_row(0, READ, 2).with_row(0, WRITE, 2);
    assert_eq!(last.complete(0), MOVED);
    assert_eq!(last.memory.buffers[2], 0);
    assert_eq!(last.memory.rows[0][WRITE], 3);
    assert_eq!(to_release.with_row(0, WRITE, 3).release(0), placed(1, 0));
    assert_eq!(
        to_release.with_row(0, READ, 3).with_row(0, WRITE, 3).release(0),
        refused(10, 0)
    );
}

/// "cursor not below the successor count", 2 here.
#[test]
fn damaged_cursor() {
    for word in [2, 3, HUGE] {
        assert_eq!(
            fork_to_release(2, 4).with_row(0, CURSOR, word).release(0),
            refused(8, 0)
        );
    }
    assert_eq!(fork_to_release(2, 4).with_row(0, CURSOR, 1).release(0), placed(2, 0));
}

/// "successor range without start t ≤ start t+1 ≤ E", E 2 here.
#[test]
fn damaged_successor_range() {
    let to_complete = fork(2, 4).with_row(0, PHASE, 2).with_row(0, HELD, 0);
    for (place, word) in [(0, 3), (0, HUGE), (1, 3), (1, HUGE)] {
        assert_eq!(
            to_complete.with(List::SuccStarts, place, word).complete(0),
            refused(8, 0)
        );
        assert_eq!(
            fork_to_release(2, 4).with(List::SuccStarts, place, word).release(0),
            refused(8, 0)
        );
    }
    // from start 1 to start 1+1 = 2: successor 2 alone
    assert_eq!(to_complete.with(List::SuccStarts, 0, 1).complete(0), MOVED);
    assert_eq!(
        fork_to_release(2, 4).with(List::SuccStarts, 0, 1).release(0),
        placed(2, 0)
    );
}

/// "weight over 65,535": a heavy weight is accepted at Fetch and met at Complete.
#[test]
fn damaged_weight() {
    for word in [65_536, HUGE] {
        let mut board = fork(2, 4).with(List::Weights, 0, word);
        assert_eq!(board.fetch(0), fetched(0));
        assert_eq!(board.start(0), MOVED);
        assert_eq!(board.complete(0), refused(8, 0));
        for (task, board) in boards_to_complete().into_iter().enumerate() {
            assert_eq!(board.with(List::Weights, task, word).complete(0), refused(8, 0));
        }
        assert_eq!(
            fork_to_release(2, 4).with(List::Weights, 1, word).release(0),
            refused(8, 0)
        );
    }
    for (task, board) in boards_to_complete().into_iter().enumerate() {
        assert_eq!(board.with(List::Weights, task, 65_535).complete(0), MOVED);
    }
    assert_eq!(
        fork_to_release(2, 4).with(List::Weights, 1, 65_535).release(0),
        placed(1, 0)
    );
}

/// "entries over N", N 3 here.
#[test]
fn damaged_entries() {
    let board = fork(2, 4).with_row(0, PHASE, 2).with_row(0, HELD, 1);
    for word in [4, HUGE] {
        assert_eq!(board.with(List::Run, ENTRIES, word).complete(0), refused(8, 0));
    }
    let mut last = board.with(List::Run, ENTRIES, 2);
    assert_eq!(last.complete(0), MOVED);
    assert_eq!(last.memory.executed, [0, 0, 0, 0, 1, 0]);
    assert_eq!(last.memory.run, [3, 1]);
}

/// "accepted word 3N+E or more", 11 here.
#[test]
fn damaged_accepted_word() {
    let boards = [
        (Step::Fetch, fork(2, 4)),
        (Step::Start, fork(2, 4).with_row(0, PHASE, 1)),
        (Step::Complete, fork(2, 4).with_row(0, PHASE, 2).with_row(0, HELD, 0)),
        (Step::Release, fork_to_release(2, 4)),
    ];
    for (step, board) in boards {
        for word in [11, 12, HUGE] {
            assert_eq!(board.with(List::Run, ACCEPTED, word).step(0, step), refused(8, 0));
        }
        let mut last = board.with(List::Run, ACCEPTED, 10);
        assert!(last.step(0, step).is_ok(), "{step:?}");
        assert_eq!(last.memory.run[ACCEPTED], 11);
    }
}
