//! The table's examples; the edges and the diamond of the conditions of acceptance; the story of demand 1.

use crate::board::{
    degree_left, diamond, fetched, fork, fork_to_release, placed, refused, trident_to_release, Board, DIAMOND, MOVED,
};
use crate::diamond;
use engine_model::engines;
use engine_model::memory::{List, Memory, Step, ACCEPTED, ENTRIES, HELD, NIL, PHASE};

// The table's examples.

/// Row 1: "N 4, degrees of 3 words".
#[test]
fn row_1_example() {
    let mut board = diamond(2, 4);
    board.memory.degrees.pop();
    assert_eq!(board.begin(), refused(1, 0));
    for step in Step::ALL {
        assert_eq!(board.step(0, step), refused(1, 0));
    }
}

/// Row 2: "K 1".
#[test]
fn row_2_example() {
    let mut board = Board::new(&[0; 4], &DIAMOND, 2, 1);
    assert_eq!(board.begin(), refused(2, 0));
    for step in Step::ALL {
        assert_eq!(board.step(0, step), refused(2, 0));
    }
}

/// Row 3: "N 2, predecessor 2"; the task that has it is 1.
#[test]
fn row_3_example() {
    assert_eq!(Board::new(&[0; 2], &[&[], &[2]], 2, 4).begin(), refused(3, 1));
}

/// Row 4: "task 3: 1, 1".
#[test]
fn row_4_example() {
    assert_eq!(
        Board::new(&[0; 4], &[&[], &[0], &[0], &[1, 1]], 2, 4).begin(),
        refused(4, 3)
    );
}

/// Row 5: "1 after 2, 2 after 1: detail 1".
#[test]
fn row_5_example() {
    assert_eq!(Board::new(&[0; 3], &[&[], &[2], &[1]], 2, 4).begin(), refused(5, 1));
}

/// Row 6, as document 02 has it: "At P 2, K 2 four roots are accepted and five refused".
#[test]
fn row_6_example() {
    let roots = |count, p, k| Board::new(&vec![0; count], &vec![&[][..]; count], p, k);
    assert_eq!(roots(5, 2, 2).begin(), refused(6, 5));
    assert_eq!(roots(5, 3, 2).begin(), Ok(()));
    assert_eq!(roots(5, 2, 3).begin(), Ok(()));
    assert_eq!(roots(4, 2, 2).begin(), Ok(()));
    // document 01's three, which the fourth slot has room for now
    assert_eq!(roots(3, 2, 2).begin(), Ok(()));
}

/// Row 7: "P 2, worker 2".
#[test]
fn row_7_example() {
    for step in Step::ALL {
        assert_eq!(diamond(2, 4).step(2, step), refused(7, 2));
    }
}

/// Row 8: "a head of K", 4 here.
#[test]
fn row_8_example() {
    assert_eq!(diamond(2, 4).with(List::Ends, 0, 4).fetch(0), refused(8, 0));
}

/// Row 9: "Complete in phase 0".
#[test]
fn row_9_example() {
    assert_eq!(diamond(2, 4).complete(0), refused(9, 0));
}

/// Row 10: "P 2, one root, worker 1 fetches first".
#[test]
fn row_10_example() {
    let mut board = diamond(2, 4);
    assert_eq!(board.fetch(1), refused(10, 0));
    assert_eq!(board.release(0), refused(10, 0));
    assert_eq!(board.fetch(0), fetched(0));
}

/// Row 11, as document 02 has it: "P 1, K 2, edges 0→1, 0→2", "gains an edge 0→3 and is refused at the third Release".
#[test]
fn row_11_example() {
    let mut board = trident_to_release(1, 2);
    assert_eq!(board.release(0), placed(1, 0));
    assert_eq!(board.release(0), placed(2, 0));
    // task 0 was in slot 0, 1 went to slot 1 and 2 round to slot 0
    assert_eq!(
        (&board.memory.rings[..], &board.memory.ends[..]),
        (&[2, 1][..], &[1, 1, 2][..])
    );
    assert_eq!(board.release(0), refused(11, 3));
    board.execute(0, 1);
    assert_eq!(board.release(0), placed(3, 0));
    assert_eq!(board.memory.ends, [0, 0, 2]);
    board.execute(0, 2);
    board.execute(0, 3);
    assert_eq!(board.memory.run, [4, 15]);
    assert_eq!(board.memory.ends, [0; 3]);
}

/// Document 01's two edges alone: neither Release is refused any more.
#[test]
fn a_ring_of_two_holds_two() {
    let mut board = fork_to_release(1, 2);
    assert_eq!(board.release(0), placed(1, 0));
    assert_eq!(board.release(0), placed(2, 0));
    assert_eq!(board.release(0), refused(10, 0));
    board.execute(0, 1);
    board.execute(0, 2);
    assert_eq!(board.memory.run, [3, 11]);
}

/// "empty is count 0, full is count K": where head equals tail, the count alone tells a full ring, which is fetched from, from an
/// empty one.
#[test]
fn head_equals_tail_in_a_full_ring_and_in_an_empty_one() {
    for slot in 0..2 {
        let ends = |count| fork(1, 2).with(List::Rings, 1, 1).with_ends(0, [slot, slot, count]);
        let mut full = ends(2);
        assert_eq!(full.fetch(0), fetched(slot));
        assert_eq!(full.memory.ends, [1 - slot, slot, 1]);
        assert_eq!(ends(0).fetch(0), refused(10, 0));
        assert_eq!(ends(1).fetch(0), refused(8, 0));
    }
}

/// "head plus count not leading to tail modulo K": count 0 with head 1, tail 0 is 8 at Fetch, and so it is at a Release.
#[test]
fn an_empty_ring_with_head_and_tail_apart() {
    assert_eq!(fork(1, 2).with_ends(0, [1, 0, 0]).fetch(0), refused(8, 0));
    assert_eq!(fork_to_release(1, 2).with_ends(0, [1, 0, 0]).release(0), refused(8, 0));
}

/// Row 12: "entries word N, phase 2".
#[test]
fn row_12_example() {
    let board = diamond(2, 4).with_row(0, PHASE, 2);
    assert_eq!(board.with(List::Run, ENTRIES, 4).complete(0), refused(12, 0));
}

// The edges and the diamond of the conditions of acceptance.

/// "N 0 (0 steps, begun is finished)"
#[test]
fn no_task_at_all() {
    let mut board = Board::begun(&[], &[], 2, 4);
    assert_eq!(board.memory.succ_starts, [0]);
    assert_eq!(board.memory.run, [0, 0]);
    assert_eq!(board.memory.rows, [[0, NIL, 0, 0, 0, 0]; 2]);
    for worker in 0..2 {
        assert_eq!(board.fetch(worker), refused(10, 0));
        assert_eq!(board.release(worker), refused(10, 0));
        assert_eq!(board.start(worker), refused(9, 0));
        assert_eq!(board.complete(worker), refused(9, 0));
    }
    assert_eq!(board.with_row(0, PHASE, 1).start(0), refused(8, 0));
    assert_eq!(board.with_row(0, PHASE, 2).complete(0), refused(12, 0));
}

/// "At P 2, K 2 four roots are accepted": roots 1 and 3 go "to the ring of owner and filler 1", number 1·2 + 1. Both rings are full.
#[test]
fn four_roots_with_two_workers_and_two_slots() {
    let board = Board::begun(&[7, 9, 2, 1], &[&[][..]; 4], 2, 2);
    let expected = Memory {
        weights: vec![7, 9, 2, 1],
        pred_starts: vec![0; 5],
        preds: vec![],
        succ_starts: vec![0; 5],
        succs: vec![],
        degrees: vec![0; 4],
        rings: vec![0, 2, 0, 0, 0, 0, 1, 3],
        ends: vec![0, 0, 2, 0, 0, 0, 0, 0, 0, 0, 0, 2],
        counters: vec![7 + 2, 0, 0, 9 + 1],
        buffers: vec![0; 8],
        executed: vec![0; 8],
        run: vec![0, 0],
        rows: vec![[0, NIL, 0, 0, 0, 0]; 2],
    };
    assert_eq!(board.memory, expected);
}

/// "two roots with P 2, K 2 (accepted)": root 1 goes "to the ring of owner and filler 1", number 1·2 + 1.
#[test]
fn two_roots_with_two_workers_and_two_slots() {
    let board = Board::begun(&[7, 9], &[&[], &[]], 2, 2);
    let expected = Memory {
        weights: vec![7, 9],
        pred_starts: vec![0, 0, 0],
        preds: vec![],
        succ_starts: vec![0, 0, 0],
        succs: vec![],
        degrees: vec![0, 0],
        rings: vec![0, 0, 0, 0, 0, 0, 1, 0],
        ends: vec![0, 1, 1, 0, 0, 0, 0, 0, 0, 0, 1, 1],
        counters: vec![7, 0, 0, 9],
        buffers: vec![0; 4],
        executed: vec![0; 4],
        run: vec![0, 0],
        rows: vec![[0, NIL, 0, 0, 0, 0]; 2],
    };
    assert_eq!(board.memory, expected);
}

/// "root number m, from 0, goes to the ring of owner and filler m mod P": five roots among seven tasks, P 2.
#[test]
fn roots_are_taken_rising() {
    let lists: [&[u32]; 7] = [&[], &[3], &[], &[], &[], &[2], &[]];
    let board = Board::begun(&[1, 2, 4, 8, 16, 32, 64], &lists, 2, 4);
    assert_eq!(board.memory.rings, [0, 3, 6, 0, 0, 0, 0, 0, 0, 0, 0, 0, 2, 4, 0, 0]);
    assert_eq!(board.memory.ends, [0, 3, 3, 0, 0, 0, 0, 0, 0, 0, 2, 2]);
    assert_eq!(board.memory.counters, [1 + 8 + 64, 0, 0, 4 + 16]);
    assert_eq!(board.memory.degrees, [0, 1, 0, 0, 0, 1, 0]);
}

/// The diamond in whole, in the desk program's turns, with the words after begin and at the end.
#[test]
fn the_diamond_in_whole() {
    let mut board = diamond(2, 4);
    assert_eq!(board.memory, diamond::begun());
    board.execute(0, 0);
    assert_eq!(board.release(0), placed(1, 0));
    assert_eq!(board.release(0), placed(2, 1));
    assert_eq!(board.fetch(1), fetched(2));
    assert_eq!(board.fetch(0), fetched(1));
    for worker in [1, 0] {
        assert_eq!(board.start(worker), MOVED);
    }
    for worker in [1, 0] {
        assert_eq!(board.complete(worker), MOVED);
    }
    assert_eq!(board.release(1), degree_left(1));
    assert_eq!(board.release(0), placed(3, 0));
    board.execute(0, 3);
    assert_eq!(board.memory, diamond::finished());
}

/// Document 02, No. 3: "Operators see new tiles sent to a machine that has just taken an hour's work."
///
/// Worker 0 fetches its root of weight 60, and worker 1 completes its own and releases task 2. The sums are 60 and 0, so task 2
/// goes to worker 1; with the weight gone at Fetch they would both be 0, and it would go to 0.
#[test]
fn a_lane_with_a_long_tile_is_not_empty() {
    let mut board = Board::begun(&[60, 1, 1], &[&[], &[], &[1]], 2, 4);
    assert_eq!(board.fetch(0), fetched(0));
    board.execute(1, 1);
    assert_eq!(board.memory.counters, [60, 0, 0, 0]);
    assert_eq!(board.with(List::Counters, 0, 0).release(1), placed(2, 0));
    assert_eq!(board.release(1), placed(2, 1));
    assert_eq!(board.memory.counters, [60, 0, 0, 1]);
    assert_eq!(board.start(0), MOVED);
    assert_eq!(board.memory.counters, [60, 0, 0, 1]);
    assert_eq!(board.complete(0), MOVED);
    assert_eq!(board.memory.counters, [0, 0, 0, 1]);
    board.execute(1, 2);
    assert_eq!(board.memory.counters, [0; 4]);
    assert_eq!(board.memory.executed, [1, 1, 0, 0, 2, 1]);
}

/// "Release 0→0, Fetch 0→1, Start 1→2, Complete 2→0; the other eight pairs are refused."
#[test]
fn phase_against_step() {
    let table = [
        (Step::Release, [Some(0), None, None]),
        (Step::Fetch, [Some(1), None, None]),
        (Step::Start, [None, Some(2), None]),
        (Step::Complete, [None, None, Some(0)]),
    ];
    // task 1 waits, 2 can be released, and 0 is held, so that every step finds what it needs
    let mut board = fork_to_release(1, 4);
    assert_eq!(board.release(0), placed(1, 0));
    let board = board.with_row(0, HELD, 0);
    for (step, nexts) in table {
        for (phase, next) in (0..).zip(nexts) {
            let mut each = board.with_row(0, PHASE, phase);
            let answer = each.step(0, step);
            match next {
                None => assert_eq!(answer, refused(9, phase)),
                Some(next) => {
                    assert!(answer.is_ok(), "{step:?} in phase {phase}: {answer:?}");
                    assert_eq!(each.memory.rows[0][PHASE], next);
                }
            }
        }
    }
}

// The story of demand 1.

/// 16 roots, one for each worker, and 33 successors of root 3. Roots weigh 10, root 3 weighs 7, its successors 1, the last 5.
fn story_board() -> Board {
    let successor: &[u32] = &[3];
    let lists = [vec![&[][..]; 16], vec![successor; 33]].concat();
    let mut weights = [vec![10; 16], vec![1; 33]].concat();
    weights[3] = 7;
    weights[48] = 5;
    Board::new(&weights, &lists, 16, 2)
}

/// "A refused placement once left its weight on the lane. The board showed twelve as loaded and every later tile passed over
/// an empty machine."
///
/// Each ring holds K = 2 tasks. After worker 3 has completed its root, its own sum is 0 and all others are 10. So worker 3
/// is the target of every Release: 16 and 17 go to it, and with its ring full and its sum 2, which stays the least, the others go
/// to the owners behind it, two to each: 18 and 19 to 4, … 40 and 41 to 15, 42 and 43 to 0, 44 and 45 to 1, 46 and 47 to 2. Each of
/// them then has the sum 12. The owners expected here and below follow docs/RULE.md.
#[test]
fn a_refused_release_leaves_every_word() {
    for engine in engines::all() {
        let mut board = story_board().by(engine);
        assert_eq!(board.begin(), Ok(()));
        board.execute(3, 3);
        let owners = [3, 4, 5, 6, 7, 8, 9, 10, 11, 12, 13, 14, 15, 0, 1, 2];
        for (task, owner) in (16..48).zip(owners.into_iter().flat_map(|owner| [owner; 2])) {
            assert_eq!(board.release(3), placed(task, owner));
        }
        let before = board.memory.clone();
        for _ in 0..3 {
            assert_eq!(board.release(3), refused(11, 48));
            assert_eq!(board.memory, before);
        }
        room_at_twelve(board.clone());
        room_at_three(board.clone());
        no_room_at_two(board);
    }
}

/// Worker 12 passes its empty rings 0 to 2 and takes 34 from the ring that worker 3 fills; its sum stays 12, and the target is
/// still 3 with the sum 2, and the rings of 3 to 11 are full. At Complete the weight of 34 leaves counter (12, 12).
fn room_at_twelve(mut board: Board) {
    assert_eq!(board.fetch(12), fetched(34));
    let mut expected = board.memory.clone();
    assert_eq!(board.release(3), placed(48, 12));
    let ring = 12 * 16 + 3;
    // 34 was in slot 0 and 35 is in slot 1; the tail goes from 0 to 1
    expected.rings[2 * ring] = 48;
    expected.ends[3 * ring..][..3].copy_from_slice(&[1, 1, 2]);
    // 1 of task 34, which worker 12 has in its hand, 1 of task 35 and 5 of task 48
    expected.counters[ring] = 1 + 1 + 5;
    expected.degrees[48] = 0;
    expected.run[ACCEPTED] += 1;
    // all 33 are released: the cursor is 0 again, and the read place 1
    expected.rows[3] = [0, NIL, 4, 1, 1, 0];
    assert_eq!(board.memory, expected);
    assert_eq!(board.start(12), MOVED);
    assert_eq!(board.complete(12), MOVED);
    let counters = &board.memory.counters;
    assert_eq!((counters[ring], counters[12 * 16 + 12]), (1 + 1 + 5, 10 - 1));
}

/// Worker 3 takes 16 from its own ring, and is the target with the sum 1.
fn room_at_three(mut board: Board) {
    board.execute(3, 16);
    assert_eq!(board.release(3), placed(48, 3));
}

/// Worker 2 takes its root, not a task from worker 3: its sum is 2 and it is the target before 3, but no ring that worker
/// 3 fills has room. Once it has taken 46 too, which counts in its hand, its ring has room.
fn no_room_at_two(mut board: Board) {
    board.execute(2, 2);
    assert_eq!(board.release(3), refused(11, 48));
    assert_eq!(board.fetch(2), fetched(46));
    assert_eq!(board.release(3), placed(48, 2));
}
