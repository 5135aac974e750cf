//! No. 6 of document 02 on every weak engine: the examples, the order of refusals, which words a call reads, and wrong programs.

#[path = "common/board.rs"]
mod any_board;
#[path = "common/weak.rs"]
mod board;

use board::{diamond, fetched, later_copies, placed, refused, Board, HUGE, MARK, MOVED};
use engine_model::engine::Engine;
use engine_model::memory::{List, Lists, Step, ACCEPTED, ENTRIES, NIL};
use engine_model::model::Refusal;
use engine_model::runs::weak_runs_of_one_graph;
use engine_model::weak::{
    self, Copied, Memory, Outcome, CURSOR, HELD_PRED, HELD_TASK, MODEL, PHASE, POINTER, READ, ROOTS, UNFIXED, WRITE,
};
use engine_model::weak_demand3::play;

/// What the diamond's lists hold at the end, by hand.
fn diamond_finished() -> Memory {
    let mut rings = vec![[0, 0]; 16];
    // owner 0, filled by 0 and by 1; owner 1, filled by 0
    rings[..3].copy_from_slice(&[[0, NIL], [1, 0], [3, 1]]);
    rings[4] = [3, 2];
    rings[8] = [2, 0];
    Memory {
        weights: vec![0, 5, 3, 0],
        pred_starts: vec![0, 0, 1, 2, 4],
        preds: vec![0, 0, 1, 2],
        succ_starts: vec![0, 2, 3, 4, 4],
        succs: vec![1, 2, 3, 3],
        degrees: vec![0; 4],
        fixed: vec![0, 0, 1, 0],
        rings,
        ends: vec![3, 3, 0, 1, 1, 0, 1, 1, 0, 0, 0, 0],
        counters: vec![0, 0, 3, -3],
        buffers: vec![0, 1, 0, 0, 2, 0, 0, 0],
        executed: vec![0, NIL, 0, 2, 0, 1, 1, 0, 0, 3, 2, 0, 3, 1, 0, 0, 0, 0, 0, 0, 0, 0, 0, 0],
        run: vec![5, 19, 1],
        rows: vec![[0, NIL, NIL, 1, 2, 2, 0], [0, NIL, NIL, 1, 1, 1, 0]],
    }
}

/// "With R roots a run has 4E + 3R accepted steps": 4·4 + 3 = 19.
#[test]
fn the_weak_diamond_by_the_desk_s_turns() {
    let mut board = diamond();
    assert_eq!(board.desk(), 19);
    assert_eq!(
        board.record(),
        [[0, NIL, 0], [2, 0, 1], [1, 0, 0], [3, 2, 0], [3, 1, 0]]
    );
    assert_eq!(board.memory, diamond_finished());
    // "length 3(E + N), E + R copies used": nine words of the 24 aren't
    assert_eq!(board.memory.executed.len(), 24);
    assert_eq!(board.memory.executed[15..], [0; 9]);
}

/// "Everything is zeroed but weights and the predecessor tables"; "an empty hand NIL twice"; "65,535 before"; "a root being begun
/// with degree 1"; "keeps R".
#[test]
fn the_weak_diamond_begun() {
    let mut rings = vec![[0, 0]; 16];
    rings[0] = [0, NIL];
    let begun = Memory {
        degrees: vec![1, 1, 1, 2],
        fixed: vec![0, UNFIXED, UNFIXED, UNFIXED],
        rings,
        ends: vec![0, 1, 1, 0, 0, 0, 0, 0, 0, 0, 0, 0],
        counters: vec![0; 4],
        buffers: vec![0; 8],
        executed: vec![0; 24],
        run: vec![0, 0, 1],
        rows: vec![[0, NIL, NIL, 0, 0, 0, 0]; 2],
        ..diamond_finished()
    };
    assert_eq!(diamond().memory, begun);
    // a begin in the middle and after the end starts another run
    let mut board = diamond();
    board.execute(0, 0, NIL);
    assert_eq!(board.begin(), Ok(()));
    assert_eq!(board.memory, begun);
    board.desk();
    assert_eq!(board.begin(), Ok(()));
    assert_eq!(board.memory, begun);
}

/// "root number m, from 0, goes to the ring of owner and filler m mod P, and its weight to that counter", and it is fixed there.
#[test]
fn roots_are_dealt_and_fixed() {
    let board = Board::begun(&[1, 2, 4, 8, 16], &[&[], &[4], &[], &[], &[]], 3, 2);
    assert_eq!(board.memory.fixed, [0, UNFIXED, 1, 2, 0]);
    assert_eq!(board.memory.degrees, [1, 1, 1, 1, 1]);
    assert_eq!(board.memory.run, [0, 0, 4]);
    assert_eq!([0, 1, 2].map(|worker| board.sum(worker)), [17, 4, 8]);
    let rings = &board.memory.rings;
    assert_eq!(rings[0..2], [[0, NIL], [4, NIL]]);
    assert_eq!(rings[8..10], [[2, NIL], [0, 0]]);
    assert_eq!(rings[16..18], [[3, NIL], [0, 0]]);
}

/// "both edges N 0 (0 steps, begun is finished)": R is 0.
#[test]
fn no_tasks() {
    let mut board = Board::begun(&[], &[], 2, 2);
    assert_eq!(board.memory.run, [0, 0, 0]);
    for worker in 0..2 {
        assert_eq!(board.fetch(worker), refused(10, 0));
        assert_eq!(board.release(worker), refused(10, 0));
        assert_eq!(board.start(worker), refused(9, 0));
        assert_eq!(board.complete(worker), refused(9, 0));
    }
    // forged: 4E + 3R is 0, so every accepted word is damaged; E + R is 0, so no entry has room
    assert_eq!(board.with_row(0, PHASE, 1).start(0), refused(8, 0));
    assert_eq!(board.with_row(0, PHASE, 2).complete(0), refused(12, 0));
}

/// "Release always makes one copy and answers it with its owner; Fetch answers the copy."
#[test]
fn answers() {
    let mut board = diamond();
    assert_eq!(board.fetch(0), fetched(0, NIL));
    assert_eq!(board.memory.rows[0][..3], [1, 0, NIL]);
    assert_eq!(board.start(0), MOVED);
    assert_eq!(board.memory.rows[0][..3], [2, 0, NIL]);
    assert_eq!(board.complete(0), MOVED);
    assert_eq!(board.memory.rows[0][..3], [0, NIL, NIL]);
    assert_eq!(board.release(0), placed(1, 0, 0));
    assert_eq!(board.release(0), placed(2, 0, 1));
    assert_eq!(board.release(0), refused(10, 0));
    assert_eq!(board.fetch(1), fetched(2, 0));
    assert_eq!(board.memory.rows[1], [1, 2, 0, 1, 0, 0, 0]);
}

/// "later copies go only to that worker's ring, and 11 is given exactly if that ring is full": other rings of worker 1 have room.
#[test]
fn a_later_copy_meets_a_full_ring() {
    let mut board = later_copies();
    // owner 0 filled by 1 is full, owner 1 filled by 1 empty
    assert_eq!(board.memory.ends[3..6], [0, 0, 2]);
    assert_eq!(board.memory.ends[9..12], [1, 1, 0]);
    assert_eq!(board.release(1), refused(11, 4));
    // the ring of the same owner filled by another worker doesn't count
    assert_eq!(board.with_ends(0, [0, 0, 0]).release(1), refused(11, 4));
    assert_eq!(board.with_ends(3, [0, 0, 2]).release(1), refused(11, 4));
    // nor does a copy that the owner takes from there
    let mut elsewhere = board.with_row(0, POINTER, 0);
    elsewhere.execute(0, 3, 0);
    assert_eq!(elsewhere.release(1), refused(11, 4));
    // once the owner has taken one of this ring it is accepted
    board.execute(0, 2, 1);
    assert_eq!(board.release(1), placed(4, 1, 0));
    // the weights of 3 and 4 are still counted, that of 2 no longer
    assert_eq!([board.sum(0), board.sum(1)], [2, 0]);
    assert_eq!(board.memory.degrees, [0, 0, 0, 2, 2]);
    assert_eq!(board.release(1), refused(10, 0));
}

/// Only of a first copy's owners are all looked at, and 11 is given if all rings of the caller are full.
#[test]
fn a_first_copy_meets_full_rings() {
    let mut board = Board::begun(&[0; 6], &[&[], &[0], &[0], &[0], &[0], &[0]], 2, 2);
    board.execute(0, 0, NIL);
    // equal sums: the lowest number, then the next ring that isn't full
    for (task, owner) in [(1, 0), (2, 0), (3, 1), (4, 1)] {
        assert_eq!(board.release(0), placed(task, 0, owner));
    }
    assert_eq!(board.release(0), refused(11, 5));
    assert_eq!(board.memory.fixed, [0, 0, 0, 1, 1, UNFIXED]);
    board.execute(1, 3, 0);
    assert_eq!(board.release(0), placed(5, 0, 1));
}

/// "fixes the task's worker": that of the ring really used, not target j.
#[test]
fn the_worker_of_the_ring_used_is_fixed() {
    let weights = [0, 7, 0, 0, 1];
    let mut board = Board::begun(&weights, &[&[], &[], &[0], &[0], &[0, 1]], 2, 2);
    board.execute(0, 0, NIL);
    assert_eq!(board.release(0), placed(2, 0, 0));
    assert_eq!(board.release(0), placed(3, 0, 0));
    // worker 0 has the least sum, and its ring is full
    assert_eq!([board.sum(0), board.sum(1)], [0, 7]);
    assert_eq!(board.release(0), placed(4, 0, 1));
    assert_eq!(board.memory.fixed[4], 1);
    assert_eq!([board.sum(0), board.sum(1)], [0, 8]);
    board.execute(1, 4, 0);
    board.execute(1, 1, NIL);
    assert_eq!(board.release(1), placed(4, 1, 1));
}

/// "A copy's Complete alone lowers the degree […], and the last one completes the task." "Weight joins with the first copy and
/// leaves when the last copy completes."
#[test]
fn one_of_two_copies_leaves_degree_and_weight() {
    let mut board = Board::begun(&[0, 5, 3, 7, 1], &[&[], &[0], &[0], &[1, 2], &[3]], 2, 4);
    board.execute(0, 0, NIL);
    board.release(0).expect("task 1 to worker 0");
    board.release(0).expect("task 2 to worker 1");
    board.execute(0, 1, 0);
    board.execute(1, 2, 0);
    assert_eq!(board.release(0), placed(3, 1, 0));
    assert_eq!((board.sum(0), board.memory.degrees[3]), (7, 2));
    assert_eq!(board.release(1), placed(3, 2, 0));
    assert_eq!((board.sum(0), board.memory.degrees[3]), (7, 2));
    board.execute(0, 3, 2);
    assert_eq!((board.sum(0), board.memory.degrees[3]), (7, 1));
    // nothing to release yet
    assert_eq!(board.release(0), refused(10, 0));
    board.execute(0, 3, 1);
    assert_eq!((board.sum(0), board.memory.degrees[3]), (0, 0));
    assert_eq!(board.release(0), placed(4, 3, 0));
    assert_eq!(board.memory.run, [5, 20, 1]);
}

/// "R (over N is damaged), read just before either other": in Complete before 12, in the others after 10 and 11.
#[test]
fn r_over_n() {
    let board = diamond();
    for bad in [5, 65_535, HUGE] {
        let forged = board.with(List::Run, ROOTS, bad);
        assert_eq!(forged.clone().fetch(1), refused(10, 0));
        assert_eq!(forged.clone().release(0), refused(10, 0));
        assert_eq!(forged.clone().fetch(0), refused(8, 0));
        assert_eq!(forged.with_row(0, PHASE, 1).start(0), refused(8, 0));
        let running = forged.with_row(1, PHASE, 2);
        assert_eq!(running.clone().complete(1), refused(8, 0));
        // as many entries as there may be are 12, but R comes first
        for entries in [5, 8, 9] {
            assert_eq!(running.with(List::Run, ENTRIES, entries).complete(1), refused(8, 0));
        }
        let full = later_copies().with(List::Run, ROOTS, bad.max(6));
        assert_eq!(full.clone().release(1), refused(11, 4));
    }
    // N is within; 12 with E + R entries
    let running = board.with_row(1, PHASE, 2).with(List::Run, ENTRIES, 5);
    assert_eq!(running.clone().complete(1), refused(12, 0));
}

/// "A wrong R up to N is used as it stands": E + R entries are 12, more are 8, and 4E + 3R accepted steps or more are 8.
#[test]
fn counts_follow_r() {
    let started = |board: &Board| {
        let mut board = board.clone();
        assert_eq!(board.fetch(0), fetched(0, NIL));
        assert_eq!(board.start(0), MOVED);
        board
    };
    for roots in 0..=4 {
        let board = started(&diamond()).with(List::Run, ROOTS, roots);
        let (copies, steps) = (4 + roots, 16 + 3 * roots);
        for (entries, expected) in [
            (copies - 1, MOVED),
            (copies, refused(12, 0)),
            (copies + 1, refused(8, 0)),
        ] {
            assert_eq!(
                board.with(List::Run, ENTRIES, entries).complete(0),
                expected,
                "R {roots}"
            );
        }
        for (accepted, expected) in [(steps - 1, MOVED), (steps, refused(8, 0)), (HUGE, refused(8, 0))] {
            let board = board.with(List::Run, ACCEPTED, accepted);
            assert_eq!(board.clone().complete(0), expected, "R {roots}");
            // 12 comes before the accepted word
            let full = board.with(List::Run, ENTRIES, copies);
            assert_eq!(full.clone().complete(0), refused(12, 0), "R {roots}");
        }
    }
    // an entry in the last place that R leaves
    let mut board = started(&diamond())
        .with(List::Run, ROOTS, 4)
        .with(List::Run, ENTRIES, 7);
    assert_eq!(board.complete(0), MOVED);
    assert_eq!(board.memory.executed[21..], [0, NIL, 0]);
    assert_eq!(board.memory.run, [8, 3, 4]);
}

/// "a predecessor word neither NIL nor below N is damaged"; that the pair is an edge isn't asked.
#[test]
fn words_of_a_copy() {
    let board = diamond();
    for pred in [0, 1, 3, NIL] {
        assert_eq!(board.with(List::Rings, 1, pred).fetch(0), fetched(0, pred));
        let running = board
            .with_row(1, PHASE, 2)
            .with_row(1, HELD_TASK, 2)
            .with_row(1, HELD_PRED, pred);
        let mut running = running.clone();
        assert_eq!(running.complete(1), MOVED);
        assert_eq!(running.record(), [[2, pred, 1]]);
    }
    for task in [1, 2, 3] {
        assert_eq!(board.with(List::Rings, 0, task).fetch(0), fetched(task, NIL));
    }
    for bad in [4, 5, 65_534, 65_536, HUGE] {
        assert_eq!(board.with(List::Rings, 1, bad).fetch(0), refused(8, 0));
        let running = board.with_row(1, PHASE, 2).with_row(1, HELD_TASK, 2);
        assert_eq!(running.with_row(1, HELD_PRED, bad).complete(1), refused(8, 0));
    }
    for bad in [4, 5, NIL, 65_536, HUGE] {
        assert_eq!(board.with(List::Rings, 0, bad).fetch(0), refused(8, 0));
        let running = board.with_row(1, PHASE, 2).with_row(1, HELD_PRED, NIL);
        assert_eq!(running.with_row(1, HELD_TASK, bad).complete(1), refused(8, 0));
    }
    // a slot that isn't taken, and the hand in the other phases, aren't read
    assert_eq!(board.with(List::Rings, 3, HUGE).fetch(0), fetched(0, NIL));
    assert_eq!(
        board.with_row(0, HELD_TASK, HUGE).with_row(0, HELD_PRED, HUGE).fetch(0),
        fetched(0, NIL)
    );
    assert_eq!(board.with_row(0, PHASE, 1).with_row(0, HELD_PRED, HUGE).start(0), MOVED);
}

/// "65,535 before, else below P or damaged": read before the ends, the counters and 11.
#[test]
fn words_of_the_fixed_workers() {
    let board = later_copies();
    for bad in [2, 3, 16, 65_534, 65_536, HUGE] {
        assert_eq!(board.with(List::Fixed, 4, bad).release(1), refused(8, 0), "{bad}");
        // those of other tasks aren't read
        assert_eq!(board.with(List::Fixed, 3, bad).release(1), refused(11, 4), "{bad}");
    }
    assert_eq!(board.with(List::Fixed, 4, 1).release(1), placed(4, 1, 1));
    // as a first copy it seeks a target: worker 1 has the least sum
    let mut first = board.with(List::Fixed, 4, UNFIXED);
    assert_eq!(first.release(1), placed(4, 1, 1));
    assert_eq!(first.memory.fixed[4], 1);
    assert_eq!([first.sum(0), first.sum(1)], [3, 1]);
}

/// A later copy reads neither counters nor weight, nor the ends of other rings; no Release reads a degree.
#[test]
fn what_a_release_reads() {
    let later = later_copies().with_ends(1, [0, 1, 1]);
    assert_eq!(later.clone().release(1), placed(4, 1, 0));
    for ring in 0..4 {
        let counter = later.with(List::Counters, ring, 1 << 31);
        assert_eq!(counter.clone().release(1), placed(4, 1, 0));
        let expected = if ring == 1 { refused(8, 0) } else { placed(4, 1, 0) };
        assert_eq!(later.with_ends(ring, [HUGE, 0, 0]).release(1), expected);
        assert_eq!(later.with_ends(ring, [0, 1, 0]).release(1), expected);
        assert_eq!(later.with_ends(ring, [0, 0, 3]).release(1), expected);
    }
    assert_eq!(later.with(List::Weights, 4, HUGE).release(1), placed(4, 1, 0));
    for degree in [0, 1, 6, HUGE] {
        let mut board = later.with(List::Degrees, 4, degree);
        assert_eq!(board.release(1), placed(4, 1, 0));
        assert_eq!(board.memory.degrees[4], degree);
    }
    // a first copy reads all counters, then the ends from the target up, then the weight
    let mut first = diamond();
    first.execute(0, 0, NIL);
    assert_eq!(first.with(List::Degrees, 1, HUGE).release(0), placed(1, 0, 0));
    assert_eq!(first.with(List::Weights, 1, 65_536).release(0), refused(8, 0));
    for ring in 0..4 {
        let counter = first.with(List::Counters, ring, (1 << 30) + 1);
        assert_eq!(counter.clone().release(0), refused(8, 0));
    }
    assert_eq!(first.with_ends(2, [HUGE, 0, 0]).release(0), placed(1, 0, 0));
    let full = first.with_ends(0, [0, 0, 4]);
    assert_eq!(full.clone().release(0), placed(1, 0, 1));
    assert_eq!(full.with_ends(2, [HUGE, 0, 0]).release(0), refused(8, 0));
    let all_full = full.with_ends(2, [0, 0, 4]).with(List::Weights, 1, HUGE);
    assert_eq!(all_full.clone().release(0), refused(11, 1));
    assert_eq!(all_full.with(List::Counters, 3, 1 << 31).release(0), refused(8, 0));
    assert_eq!(all_full.with(List::Run, ACCEPTED, HUGE).release(0), refused(11, 1));
    // its places, the task, its range, the cursor and the successor
    for bad in [
        first.with_row(0, READ, 2),
        first.with_row(0, WRITE, 5),
        first.with(List::Buffers, 0, 4),
        first.with(List::SuccStarts, 0, 3),
        first.with(List::SuccStarts, 1, 5),
        first.with_row(0, CURSOR, 2),
        first.with(List::Succs, 0, 4),
        first.with(List::Run, ACCEPTED, 19),
    ] {
        assert_eq!(bad.clone().release(0), refused(8, 0));
    }
}

/// A copy that isn't the last reads neither weight, counter, successor range nor buffer places; the last one does.
#[test]
fn what_a_complete_reads() {
    // two copies of 3, which has a successor, both in worker 0's rings
    let mut board = Board::begun(&[0, 0, 0, 1, 0], &[&[], &[0], &[0], &[1, 2], &[3]], 1, 4);
    board.execute(0, 0, NIL);
    board.release(0).expect("task 1");
    board.release(0).expect("task 2");
    board.execute(0, 1, 0);
    board.execute(0, 2, 0);
    assert_eq!(board.release(0), placed(3, 1, 0));
    assert_eq!(board.release(0), placed(3, 2, 0));
    let running = |board: &Board| {
        let mut board = board.clone();
        board.fetch(0).expect("a copy of 3");
        board.start(0).expect("it starts");
        board
    };
    let first = running(&board);
    let damages = |board: &Board| {
        [
            board.with(List::Weights, 3, 65_536),
            board.with(List::Counters, 0, (1 << 30) + 1),
            board.with(List::Counters, 0, (-(1 << 30) - 1) as u32),
            board.with(List::SuccStarts, 3, HUGE),
            board.with(List::SuccStarts, 4, HUGE),
            board.with_row(0, READ, HUGE),
            board.with_row(0, WRITE, HUGE),
            // write N where a task must join
            board.with_row(0, WRITE, 5),
        ]
    };
    for damaged in damages(&first) {
        assert_eq!(damaged.clone().complete(0), MOVED);
    }
    let mut last = first.clone();
    assert_eq!(last.complete(0), MOVED);
    let last = running(&last);
    for damaged in damages(&last) {
        assert_eq!(damaged.clone().complete(0), refused(8, 0));
    }
    assert_eq!(last.clone().complete(0), MOVED);
    for either in [&first, &last] {
        for degree in [0, 6, HUGE] {
            assert_eq!(either.with(List::Degrees, 3, degree).complete(0), refused(8, 0));
        }
        assert_eq!(either.with(List::Degrees, 3, 5).complete(0), MOVED);
        // the fixed worker isn't read
        assert_eq!(either.with(List::Fixed, 3, HUGE).complete(0), MOVED);
        assert_eq!(either.with(List::Run, ACCEPTED, 23).complete(0), refused(8, 0));
    }
    // counter (i, i) at its limits is taken from, and may go below
    let mut low = last.with(List::Counters, 0, -(1 << 30) as u32);
    assert_eq!(low.complete(0), MOVED);
    assert_eq!(low.memory.counters, [-(1 << 30) - 1]);
    // a sink joins no buffer, whatever its places
    let sink = diamond()
        .with_row(1, PHASE, 2)
        .with_row(1, HELD_TASK, 3)
        .with_row(1, HELD_PRED, 1);
    let sink = sink.with(List::Degrees, 3, 1).with_row(1, READ, HUGE);
    assert_eq!(sink.clone().complete(1), MOVED);
}

/// "whichever ring the task came from": the weight leaves counter (i, i) of the caller.
#[test]
fn the_weight_leaves_counter_i_i() {
    let mut board = diamond();
    board.execute(0, 0, NIL);
    board.release(0).expect("task 1");
    assert_eq!(board.release(0), placed(2, 0, 1));
    assert_eq!(board.memory.counters, [5, 0, 3, 0]);
    board.execute(1, 2, 0);
    assert_eq!(board.memory.counters, [5, 0, 3, -3]);
}

/// "the scan stops at the first ring that isn't empty": neither weight nor counter is read at Fetch.
#[test]
fn what_a_fetch_reads() {
    let board = diamond();
    for bad in [
        board.with_row(0, POINTER, 2),
        board.with(List::Ends, 0, 4),
        board.with(List::Ends, 1, 4),
        board.with(List::Ends, 2, 5),
        board.with(List::Run, ACCEPTED, 19),
        // from pointer 1 the ring filled by 1 is read first
        board.with_row(0, POINTER, 1).with(List::Ends, 3, 4),
    ] {
        assert_eq!(bad.clone().fetch(0), refused(8, 0));
    }
    for fine in [
        board.with(List::Weights, 0, HUGE),
        board.with(List::Counters, 0, 1 << 31),
        board.with(List::Degrees, 0, HUGE),
        board.with(List::Fixed, 0, HUGE),
        board.with(List::Ends, 3, 4),
        board.with(List::Run, ENTRIES, HUGE),
        board.with_row(0, READ, HUGE),
    ] {
        assert_eq!(fine.clone().fetch(0), fetched(0, NIL));
    }
}

/// "Release 0→0, Fetch 0→1, Start 1→2, Complete 2→0; the other eight pairs are refused", and a phase over 2 is damaged.
#[test]
fn phases() {
    let mut board = diamond();
    board.execute(0, 0, NIL);
    // something to release, to fetch, and a held copy
    let board = board
        .with_ends(0, [0, 1, 1])
        .with_row(0, HELD_TASK, 1)
        .with_row(0, HELD_PRED, 0);
    let suits = [
        (0, Step::Release),
        (0, Step::Fetch),
        (1, Step::Start),
        (2, Step::Complete),
    ];
    for phase in 0..3 {
        for step in Step::ALL {
            let answer = board.with_row(0, PHASE, phase).step(0, step);
            if suits.contains(&(phase, step)) {
                assert!(answer.is_ok(), "{phase} {step:?}");
            } else {
                assert_eq!(answer, refused(9, phase), "{step:?}");
            }
        }
    }
    for step in Step::ALL {
        assert_eq!(board.with_row(0, PHASE, 3).step(0, step), refused(8, 0));
        // 7 comes before the phase word
        assert_eq!(board.with_row(0, PHASE, 3).step(2, step), refused(7, 2));
        assert_eq!(board.with_row(1, PHASE, 3).step(HUGE, step), refused(7, HUGE));
    }
}

/// "Each length is exact": one element more or less of any list is 1, in begin and in every step, and 2 comes before it.
#[test]
fn lengths() {
    let weak = diamond();
    assert_eq!(Memory::LISTS.len(), 14);
    for &list in Memory::LISTS {
        let right = weak.memory.length(list);
        for length in [0, right - 1, right + 1, 2 * right] {
            let mut board = weak.clone();
            board.memory.lend(list, length, 0);
            // with other weights or predecessors N or E is another, which no other length fits
            assert_eq!(board.begin(), refused(1, 0), "{list:?} {length}");
            assert_eq!(board.begin_with(17, 4), refused(2, 0), "{list:?}");
            for step in Step::ALL {
                assert_eq!(board.step(0, step), refused(1, 0), "{list:?} {length}");
                assert_eq!(board.step(9, step), refused(1, 0), "{list:?} {length}");
                assert_eq!(board.step_with(2, 65, 0, step), refused(2, 0), "{list:?}");
            }
        }
    }
    // a plain job's run words and record are too short
    let mut board = weak.clone();
    board.memory.lend(List::Run, 2, 0);
    assert_eq!(board.fetch(0), refused(1, 0));
    let mut board = weak;
    board.memory.lend(List::Executed, 8, 0);
    assert_eq!(board.fetch(0), refused(1, 0));
}

/// "N at most 1,024. E edges, at most 8,192", "P from 1 to 16", "K from 2 to 64".
#[test]
fn limits() {
    let loose = |n: usize, p, k| Board::new(&vec![1; n], &vec![&[][..]; n], p, k);
    for (n, p, k, expected) in [
        (2, 1, 2, Ok(())),
        (2, 0, 2, refused(2, 0)),
        (2, 16, 2, Ok(())),
        (2, 17, 2, refused(2, 0)),
        (2, 1, 1, refused(2, 0)),
        (2, 1, 0, refused(2, 0)),
        (2, 1, 64, Ok(())),
        (2, 1, 65, refused(2, 0)),
        (1_024, 16, 64, Ok(())),
        (1_025, 16, 64, refused(2, 0)),
        (1_024, 15, 64, refused(6, 1_024)),
        (1_024, 16, 63, refused(6, 1_024)),
        (4, 2, 2, Ok(())),
        (5, 2, 2, refused(6, 5)),
        (3, 1, 2, refused(6, 3)),
    ] {
        let mut board = loose(n, p, k);
        assert_eq!(board.begin(), expected, "N {n} P {p} K {k}");
        let roots = if expected.is_ok() { n as u32 } else { MARK };
        assert_eq!(board.memory.run[ROOTS], roots, "N {n} P {p} K {k}");
        if expected == refused(2, 0) {
            assert_eq!(board.fetch(0), refused(2, 0), "N {n} P {p} K {k}");
        }
    }
    // a heavy weight is 2 in begin, with any length
    let mut board = loose(2, 1, 2).with(List::Weights, 1, 65_536);
    assert_eq!(board.begin(), refused(2, 0));
    board.memory.lend(List::Fixed, 1, 0);
    assert_eq!(board.begin(), refused(2, 0));
    // E at its limit and over it: each task after all before it, the last one after some
    let lists: Vec<Vec<u32>> = (0..129).map(|task: u32| (0..task).collect()).collect();
    let edges: usize = lists.iter().map(Vec::len).sum();
    let mut lists: Vec<&[u32]> = lists.iter().map(Vec::as_slice).collect();
    lists[128] = &lists[128][..128 - (edges - 8_192)];
    let mut board = Board::new(&[0; 129], &lists, 2, 2);
    assert_eq!(board.memory.e(), 8_192);
    assert_eq!(board.begin(), Ok(()));
    assert_eq!(board.desk(), 4 * 8_192 + 3);
    let mut more = Board::new(&[0; 130], &[&lists[..], &[&[0]]].concat(), 2, 2);
    assert_eq!((more.memory.e(), more.begin()), (8_193, refused(2, 0)));
}

/// "Order in begin: 2, 1, 3, 4, 5, 6", with document 01's examples.
#[test]
fn graphs_that_begin_refuses() {
    let begin = |lists: &[&[u32]], p, k| Board::new(&vec![1; lists.len()], lists, p, k).begin();
    assert_eq!(begin(&[&[], &[2]], 2, 2), refused(3, 1));
    assert_eq!(begin(&[&[], &[], &[], &[1, 1]], 2, 2), refused(4, 3));
    assert_eq!(begin(&[&[], &[2], &[1]], 2, 2), refused(5, 1));
    assert_eq!(begin(&[&[0]], 2, 2), refused(5, 0));
    assert_eq!(begin(&[&[], &[], &[]], 1, 2), refused(6, 3));
    assert_eq!(begin(&[&[], &[], &[], &[], &[]], 2, 2), refused(6, 5));
    // 3 before 4 before 5 before 6
    assert_eq!(begin(&[&[], &[1, 1], &[2], &[9], &[], &[]], 1, 2), refused(3, 3));
    assert_eq!(begin(&[&[], &[1, 1], &[2], &[], &[], &[]], 1, 2), refused(4, 1));
    assert_eq!(begin(&[&[], &[1], &[2], &[], &[], &[]], 1, 2), refused(5, 1));
}

/// "A call with another P or K than begin's meets 2 or 1."
#[test]
fn another_p_or_k() {
    let mut board = diamond();
    for (p, k, number) in [
        (1, 4, 1),
        (3, 4, 1),
        (16, 4, 1),
        (2, 3, 1),
        (2, 5, 1),
        (17, 4, 2),
        (2, 1, 2),
        (0, 4, 2),
    ] {
        assert_eq!(board.begin_with(p, k), refused(number, 0));
        for step in Step::ALL {
            assert_eq!(board.step_with(p, k, 0, step), refused(number, 0));
        }
    }
    for p in [usize::MAX, 1 << 63, 1 << 32] {
        assert_eq!(board.begin_with(p, p), refused(2, 0));
        assert_eq!(board.step_with(p, p, 0, Step::Fetch), refused(2, 0));
    }
}

// Wrong programs, each the model with one change.

fn with_step(step: fn(&mut Memory, usize, usize, u32, Step) -> Result<Outcome, Refusal>) -> Engine<Memory> {
    Engine {
        name: "wrong",
        step,
        ..MODEL
    }
}

/// What the check finds wrong in some run of a drawn graph.
fn found(wrong: Engine<Memory>) -> Option<String> {
    let cases = (0..200).flat_map(|seed| weak_runs_of_one_graph(seed, 12, 2));
    cases.filter_map(|case| play(&wrong, &case).err()).next()
}

/// The check finds it, in these words.
fn assert_found(wrong: Engine<Memory>, words: &str) {
    let sentence = found(wrong).expect("the check finds it");
    assert!(sentence.contains(words), "{sentence}");
}

/// The successor that the worker would release next, if it can.
fn next_successor(memory: &Memory, worker: u32) -> Option<usize> {
    let row = memory.rows.get(worker as usize)?;
    if row[READ] == row[WRITE] {
        return None;
    }
    let task = memory.buffers[worker as usize * memory.n() + row[READ] as usize] as usize;
    Some(memory.succs[(memory.succ_starts[task] + row[CURSOR]) as usize] as usize)
}

#[test]
fn the_model_is_not_wrong() {
    assert_eq!(found(MODEL), None);
    assert_eq!(found(with_step(weak::step)), None);
}

/// Every copy seeks its own target, though the weight joins once.
fn own_targets(memory: &mut Memory, p: usize, k: usize, worker: u32, step: Step) -> Result<Outcome, Refusal> {
    let later = next_successor(memory, worker).filter(|&task| step == Step::Release && memory.fixed[task] != UNFIXED);
    let Some(task) = later else {
        return weak::step(memory, p, k, worker, step);
    };
    let fixed = std::mem::replace(&mut memory.fixed[task], UNFIXED);
    let answer = weak::step(memory, p, k, worker, step);
    memory.fixed[task] = fixed;
    if let Ok(Outcome::Placed { owner, .. }) = answer {
        memory.counters[owner as usize * p + worker as usize] -= memory.weights[task] as i32;
    }
    answer
}

#[test]
fn every_copy_seeks_its_own_target() {
    assert_found(with_step(own_targets), "is due");
    // the example of the full ring
    assert_eq!(later_copies().by(with_step(own_targets)).release(1), placed(4, 1, 1));
}

/// The weight joins with each copy.
#[test]
fn a_weight_for_each_copy() {
    let wrong = with_step(|memory, p, k, worker, step| {
        let later = next_successor(memory, worker).is_some_and(|task| memory.fixed[task] != UNFIXED);
        let answer = weak::step(memory, p, k, worker, step);
        if let (true, Ok(Outcome::Placed { copy, owner })) = (later, answer) {
            memory.counters[owner as usize * p + worker as usize] += memory.weights[copy.task as usize] as i32;
        }
        answer
    });
    assert_found(wrong, "counters of worker");
}

/// The weight leaves with the first copy that completes.
#[test]
fn a_weight_that_leaves_with_the_first_copy() {
    let wrong = with_step(|memory, p, k, worker, step| {
        let held = memory.rows.get(worker as usize).map(|row| row[HELD_TASK] as usize);
        let answer = weak::step(memory, p, k, worker, step);
        if let (Step::Complete, Some(task), Ok(_)) = (step, held, answer) {
            let copies = (memory.pred_starts[task + 1] - memory.pred_starts[task]).max(1);
            let own = worker as usize * (p + 1);
            let weight = memory.weights[task] as i32;
            let left = memory.degrees[task];
            memory.counters[own] -= if left + 1 == copies { weight } else { 0 };
            memory.counters[own] += if left == 0 { weight } else { 0 };
        }
        answer
    });
    assert_found(wrong, "counters of worker");
}

/// Release lowers the degree too, so that a task completes early.
fn lowers_twice(memory: &mut Memory, p: usize, k: usize, worker: u32, step: Step) -> Result<Outcome, Refusal> {
    let answer = weak::step(memory, p, k, worker, step);
    if let Ok(Outcome::Placed { copy, .. }) = answer {
        let degree = &mut memory.degrees[copy.task as usize];
        // a degree of 0 would be damaged
        *degree = (*degree - 1).max(1);
    }
    answer
}

#[test]
fn a_release_that_lowers_the_degree() {
    assert_found(with_step(lowers_twice), "the degrees are");
    // by the desk's turns the diamond is stuck or runs on with a copy of a complete task
    let mut board = diamond().by(with_step(lowers_twice));
    board.desk();
    assert_ne!(board.memory, diamond_finished());
}

/// A root isn't fixed at begin.
#[test]
fn a_root_that_is_not_fixed() {
    let wrong = Engine {
        begin: |memory, p, k| {
            weak::begin(memory, p, k)?;
            memory.fixed.fill(UNFIXED);
            Ok(())
        },
        ..MODEL
    };
    assert_found(wrong, "the fixed workers are");
}

/// The first copy fixes the target, not the owner of the ring really used.
#[test]
fn a_target_that_is_fixed() {
    let wrong = with_step(|memory, p, k, worker, step| {
        let task = next_successor(memory, worker).filter(|&task| memory.fixed[task] == UNFIXED);
        let sum = |worker: usize| {
            memory.counters[worker * p..][..p]
                .iter()
                .map(|&counter| i64::from(counter))
                .sum::<i64>()
        };
        let target = if memory.counters.len() == p * p {
            (0..p).min_by_key(|&worker| sum(worker))
        } else {
            None
        };
        let answer = weak::step(memory, p, k, worker, step);
        if let (Some(task), Some(target), Ok(Outcome::Placed { .. })) = (task, target, answer) {
            memory.fixed[task] = target as u32;
        }
        answer
    });
    assert_found(wrong, "the fixed workers are");
}

/// A later copy falls back to another ring where its own is full.
#[test]
fn a_later_copy_that_falls_back() {
    let wrong = with_step(|memory, p, k, worker, step| {
        let answer = weak::step(memory, p, k, worker, step);
        match answer {
            Err(Refusal { number: 11, .. }) => own_targets(memory, p, k, worker, step),
            _ => answer,
        }
    });
    assert_found(wrong, "is due");
}

/// 11 although the ring has a free slot.
#[test]
fn a_ring_that_is_never_full() {
    let wrong = with_step(|memory, p, k, worker, step| {
        let task = next_successor(memory, worker).filter(|&task| memory.fixed[task] != UNFIXED);
        match task {
            Some(task) if step == Step::Release && memory.run[ACCEPTED] % 3 == 0 => refused(11, task as u32),
            _ => weak::step(memory, p, k, worker, step),
        }
    });
    assert_found(wrong, "");
}

/// A copy is recorded twice instead of both copies of its task.
#[test]
fn a_copy_recorded_twice() {
    let wrong = with_step(|memory, p, k, worker, step| {
        let answer = weak::step(memory, p, k, worker, step);
        if answer.is_ok() && step == Step::Complete {
            let entry = 3 * (memory.run[ENTRIES] as usize - 1);
            let task = memory.executed[entry] as usize;
            if let Some(&first) = memory.preds.get(memory.pred_starts[task] as usize) {
                memory.executed[entry + 1] = first;
            }
        }
        answer
    });
    assert_found(wrong, "the record is");
}

/// A Release that makes the copy with NIL.
#[test]
fn a_copy_without_its_predecessor() {
    let wrong = with_step(|memory, p, k, worker, step| {
        let answer = weak::step(memory, p, k, worker, step)?;
        Ok(match answer {
            Outcome::Placed { copy, owner } => Outcome::Placed {
                copy: Copied { pred: NIL, ..copy },
                owner,
            },
            other => other,
        })
    });
    assert_found(wrong, "to make");
}

/// R isn't kept, or the accepted word isn't raised.
#[test]
fn wrong_run_words() {
    let no_roots = Engine {
        begin: |memory, p, k| {
            weak::begin(memory, p, k)?;
            memory.run[ROOTS] = memory.weights.len() as u32;
            Ok(())
        },
        ..MODEL
    };
    assert_found(no_roots, "run words");
    let not_raised = with_step(|memory, p, k, worker, step| {
        let answer = weak::step(memory, p, k, worker, step);
        if answer.is_ok() && step == Step::Start {
            memory.run[ACCEPTED] -= 1;
        }
        answer
    });
    assert_found(not_raised, "run words");
}

/// A Fetch that always begins with the ring filled by worker 0 starves the copies of the others: "taken within (p+1)·P accepted
/// fetches of its owner".
#[test]
fn a_fetch_that_starves_a_copy() {
    let wrong = with_step(|memory, p, k, worker, step| {
        let answer = weak::step(memory, p, k, worker, step);
        if answer.is_ok() && step == Step::Fetch {
            memory.rows[worker as usize][POINTER] = 0;
        }
        answer
    });
    assert_found(wrong, "passes over a copy");
}
