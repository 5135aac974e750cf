//! The plain engine on cases worked out by hand: the diamond in whole, the examples of document 01's table, and a case for
//! each damaged word.

#[path = "common/diamond.rs"]
mod diamond;

use engine_model::memory::{Memory, Outcome, ACCEPTED, CURSOR, ENTRIES, HELD, NIL, PHASE, POINTER, READ, WRITE};
use engine_model::model::{Refusal, Table};
use engine_model::plain_engine::{begin, complete, fetch, release, start, Lent};

type StepOf = fn(&mut Lent, usize, usize, u32) -> Result<Outcome, Refusal>;

const STEPS: [StepOf; 4] = [fetch, start, complete, release];
/// No word of an honest run.
const FILL: u32 = 4_000_000_000;

fn refused<T>(number: u32, detail: u32) -> Result<T, Refusal> {
    Err(Refusal { number, detail })
}

/// The memory for each task's predecessors, before begin.
fn memory(weights: &[u32], lists: &[&[u32]], p: usize, k: usize) -> Memory {
    let lists: Vec<Vec<u32>> = lists.iter().map(|list| list.to_vec()).collect();
    let table = Table::of(&lists);
    Memory::sized(weights.to_vec(), table.starts, table.words, p, k, FILL)
}

/// The same with weights 0.
fn unweighted(lists: &[&[u32]], p: usize, k: usize) -> Memory {
    memory(&vec![0; lists.len()], lists, p, k)
}

fn diamond() -> Memory {
    memory(&[0, 5, 3, 0], &[&[], &[0], &[0], &[1, 2]], 2, 4)
}

fn begin_in(memory: &mut Memory, p: usize, k: usize) -> Result<(), Refusal> {
    begin(&mut Lent::of(memory), p, k)
}

/// The diamond after begin.
fn begun_diamond() -> Memory {
    let mut memory = diamond();
    assert_eq!(begin_in(&mut memory, 2, 4), Ok(()));
    memory
}

/// The diamond after worker 0's Fetch, Start and Complete of task 0, whose successors wait to be released.
fn completed_diamond() -> Memory {
    let mut memory = begun_diamond();
    for step in [fetch, start, complete] {
        assert!(step(&mut Lent::of(&mut memory), 2, 4, 0).is_ok());
    }
    memory
}

/// The begin is refused and no word is written.
#[track_caller]
fn assert_begin_refused(mut memory: Memory, p: usize, k: usize, number: u32, detail: u32) {
    let before = memory.clone();
    assert_eq!(begin_in(&mut memory, p, k), refused(number, detail));
    assert_eq!(memory, before);
}

/// The step is refused and no word is written.
#[track_caller]
fn assert_refused(memory: &Memory, p: usize, k: usize, worker: u32, step: StepOf, number: u32, detail: u32) {
    let mut after = memory.clone();
    assert_eq!(step(&mut Lent::of(&mut after), p, k, worker), refused(number, detail));
    assert_eq!(&after, memory);
}

#[test]
fn the_diamond_begun() {
    assert_eq!(begun_diamond(), diamond::begun());
}

/// Each turn's accepted step with its answer, as the desk program's turns take them, and every word afterwards.
#[test]
fn the_diamond_in_whole() {
    let mut memory = begun_diamond();
    let fetched = |task| Outcome::Fetched { task };
    let placed = |task, owner| Outcome::Placed { task, owner };
    let turns: [(u32, StepOf, Outcome); 16] = [
        (0, fetch, fetched(0)),
        (0, start, Outcome::Moved),
        (0, complete, Outcome::Moved),
        // all sums are 0, so task 1 goes to worker 0; its 5 then sends task 2 to worker 1
        (0, release, placed(1, 0)),
        (0, release, placed(2, 1)),
        (1, fetch, fetched(2)),
        (0, fetch, fetched(1)),
        (1, start, Outcome::Moved),
        (0, start, Outcome::Moved),
        (1, complete, Outcome::Moved),
        (0, complete, Outcome::Moved),
        (1, release, Outcome::DegreeLeft { degree: 1 }),
        // worker 1's counters are 3 and -3, so the sums are equal again
        (0, release, placed(3, 0)),
        (0, fetch, fetched(3)),
        (0, start, Outcome::Moved),
        (0, complete, Outcome::Moved),
    ];
    for (turn, (worker, step, outcome)) in turns.into_iter().enumerate() {
        let answer = step(&mut Lent::of(&mut memory), 2, 4, worker);
        assert_eq!(answer, Ok(outcome), "turn {turn}");
    }
    assert_eq!(memory, diamond::finished());
    for worker in [0, 1] {
        assert_refused(&memory, 2, 4, worker, fetch, 10, 0);
        assert_refused(&memory, 2, 4, worker, release, 10, 0);
        assert_refused(&memory, 2, 4, worker, start, 9, 0);
        assert_refused(&memory, 2, 4, worker, complete, 9, 0);
    }
}

/// "root number m, from 0, goes to the ring of owner and filler m mod P, and its weight to that counter"
#[test]
fn roots_in_turn() {
    let lists: [&[u32]; 6] = [&[], &[], &[0], &[], &[], &[]];
    let mut memory = memory(&[1, 2, 4, 8, 16, 32], &lists, 2, 4);
    assert_eq!(begin_in(&mut memory, 2, 4), Ok(()));
    // roots 0, 1, 3, 4, 5: owner 0 gets 0, 3, 5; owner 1 gets 1, 4
    assert_eq!(memory.rings, [0, 3, 5, 0, 0, 0, 0, 0, 0, 0, 0, 0, 1, 4, 0, 0]);
    assert_eq!(memory.ends, [0, 3, 3, 0, 0, 0, 0, 0, 0, 0, 2, 2]);
    assert_eq!(memory.counters, [1 + 8 + 32, 0, 0, 2 + 16]);
}

/// Row 1: "N 4, degrees of 3 words"; every list's length counts, in begin and in each step.
#[test]
fn row_1() {
    let shortened: [fn(&mut Memory); 12] = [
        |memory| memory.pred_starts.truncate(4),
        |memory| memory.succ_starts.push(0),
        |memory| memory.succs.truncate(3),
        |memory| memory.degrees.truncate(3),
        |memory| memory.rings.push(0),
        |memory| memory.ends.truncate(11),
        |memory| memory.counters.push(0),
        |memory| memory.buffers.truncate(7),
        |memory| memory.executed.push(0),
        |memory| memory.run.truncate(1),
        |memory| memory.rows.push([0; 6]),
        |memory| memory.rows.truncate(1),
    ];
    for change in shortened {
        let mut memory = begun_diamond();
        change(&mut memory);
        for step in STEPS {
            assert_refused(&memory, 2, 4, 9, step, 1, 0);
        }
        assert_begin_refused(memory, 2, 4, 1, 0);
    }
}

/// "A call with another P or K than begin's meets 2 or 1."
#[test]
fn another_p_or_k() {
    let memory = begun_diamond();
    for (p, k) in [(1, 4), (3, 4), (2, 3), (2, 5), (1, 16), (4, 4)] {
        for step in STEPS {
            assert_refused(&memory, p, k, 0, step, 1, 0);
        }
        assert_begin_refused(memory.clone(), p, k, 1, 0);
    }
}

/// Row 2: "K 1", and the other limits at both ends.
#[test]
fn row_2() {
    let memory = begun_diamond();
    let beyond = [(2, 1), (2, 0), (2, 65), (0, 4), (17, 4), (usize::MAX, usize::MAX)];
    for (p, k) in beyond {
        for step in STEPS {
            assert_refused(&memory, p, k, 9, step, 2, 0);
        }
        assert_begin_refused(memory.clone(), p, k, 2, 0);
    }
    let tasks = unweighted(&[&[][..]; 1_025], 2, 4);
    assert_refused(&tasks, 2, 4, 9, fetch, 2, 0);
    assert_begin_refused(tasks, 2, 4, 2, 0);
    let edges = unweighted(&[&[0; 8_193]], 2, 4);
    assert_refused(&edges, 2, 4, 9, fetch, 2, 0);
    assert_begin_refused(edges, 2, 4, 2, 0);
    // a heavy weight is begin's alone, and comes before 1
    let mut heavy = begun_diamond();
    heavy.weights[3] = 65_536;
    heavy.run.clear();
    assert_refused(&heavy, 2, 4, 9, fetch, 1, 0);
    assert_begin_refused(heavy, 2, 4, 2, 0);
}

/// Row 3: "N 2, predecessor 2", bad ranges, and "N for a wrong first or last start alone".
#[test]
fn row_3() {
    assert_begin_refused(unweighted(&[&[], &[2]], 2, 4), 2, 4, 3, 1);
    // task 0 names itself twice, task 1 names 9: 3 comes before 4
    assert_begin_refused(unweighted(&[&[0, 0], &[9]], 2, 4), 2, 4, 3, 1);
    let starts = |starts: &[u32]| Memory {
        pred_starts: starts.to_vec(),
        ..diamond()
    };
    assert_begin_refused(starts(&[0, 0, 2, 1, 4]), 2, 4, 3, 2);
    assert_begin_refused(starts(&[0, 0, 5, 2, 4]), 2, 4, 3, 1);
    assert_begin_refused(starts(&[0, 0, 1, 2, 3]), 2, 4, 3, 4);
    assert_begin_refused(starts(&[1, 1, 1, 2, 4]), 2, 4, 3, 4);
    let mut none = unweighted(&[], 2, 4);
    none.preds.push(0);
    none.succs.push(0);
    assert_begin_refused(none, 2, 4, 3, 0);
}

/// Row 4: "task 3: 1, 1".
#[test]
fn row_4() {
    assert_begin_refused(unweighted(&[&[], &[], &[], &[1, 1]], 2, 4), 2, 4, 4, 3);
    assert_begin_refused(unweighted(&[&[], &[], &[1, 0, 1], &[0, 0]], 2, 4), 2, 4, 4, 2);
}

/// Row 5: "1 after 2, 2 after 1: detail 1". Tasks behind a cycle or before it don't count.
#[test]
fn row_5() {
    assert_begin_refused(unweighted(&[&[], &[2], &[1]], 2, 4), 2, 4, 5, 1);
    assert_begin_refused(unweighted(&[&[0]], 2, 4), 2, 4, 5, 0);
    assert_begin_refused(unweighted(&[&[1], &[2], &[1]], 2, 4), 2, 4, 5, 1);
    // 3 → 4 → 5 → 3; 0 before it, 1 behind it, 2 between it and the loop on 6
    let lists: [&[u32]; 7] = [&[], &[4], &[5], &[0, 5], &[3], &[4], &[2, 6]];
    assert_begin_refused(unweighted(&lists, 2, 4), 2, 4, 5, 3);
    // two cycles with task 2 in common, found from 0, which lies behind
    assert_begin_refused(unweighted(&[&[3], &[2], &[1, 3], &[2]], 2, 4), 2, 4, 5, 1);
}

/// Row 6: "At P 2, K 2 four roots are accepted and five refused"; two and three are accepted too.
#[test]
fn row_6() {
    assert_begin_refused(unweighted(&[&[][..]; 5], 2, 2), 2, 2, 6, 5);
    let mut four = unweighted(&[&[][..]; 4], 2, 2);
    assert_eq!(begin_in(&mut four, 2, 2), Ok(()));
    assert_eq!(four.rings, [0, 2, 0, 0, 0, 0, 1, 3]);
    assert_eq!(four.ends, [0, 0, 2, 0, 0, 0, 0, 0, 0, 0, 0, 2]);
    let mut three = unweighted(&[&[][..]; 3], 2, 2);
    assert_eq!(begin_in(&mut three, 2, 2), Ok(()));
    assert_eq!(three.ends, [0, 0, 2, 0, 0, 0, 0, 0, 0, 0, 1, 1]);
    let mut two = unweighted(&[&[][..]; 2], 2, 2);
    assert_eq!(begin_in(&mut two, 2, 2), Ok(()));
    assert_eq!(two.rings, [0, 0, 0, 0, 0, 0, 1, 0]);
    assert_eq!(two.ends, [0, 1, 1, 0, 0, 0, 0, 0, 0, 0, 1, 1]);
}

/// Row 7: "P 2, worker 2"; it comes before the phase.
#[test]
fn row_7() {
    let mut memory = begun_diamond();
    memory.rows[0][PHASE] = 3;
    for worker in [2, 3, u32::MAX] {
        for step in STEPS {
            assert_refused(&memory, 2, 4, worker, step, 7, worker);
        }
    }
}

/// Row 9: "Complete in phase 0", and the other seven pairs.
#[test]
fn row_9() {
    let suits: [[bool; 4]; 3] = [
        [true, false, false, true],
        [false, true, false, false],
        [false, false, true, false],
    ];
    let mut memory = begun_diamond();
    for phase in 0..3 {
        memory.rows[0][PHASE] = phase;
        for (step, suits) in STEPS.into_iter().zip(suits[phase as usize]) {
            if !suits {
                assert_refused(&memory, 2, 4, 0, step, 9, phase);
            }
        }
    }
}

/// Row 10: "P 2, one root, worker 1 fetches first"; a Release with nothing in the buffer.
#[test]
fn row_10() {
    let memory = begun_diamond();
    assert_refused(&memory, 2, 4, 1, fetch, 10, 0);
    assert_refused(&memory, 2, 4, 0, release, 10, 0);
}

/// Row 11: "P 1, K 2, edges 0→1, 0→2", which "gains an edge 0→3 and is refused at the third Release", accepted once task 1 is
/// fetched.
#[test]
fn row_11() {
    let mut memory = memory(&[1, 2, 4, 8], &[&[], &[0], &[0], &[0]], 1, 2);
    assert_eq!(begin_in(&mut memory, 1, 2), Ok(()));
    for step in [fetch, start, complete, release, release] {
        assert!(step(&mut Lent::of(&mut memory), 1, 2, 0).is_ok());
    }
    // two slots: task 0 in slot 0, task 1 in slot 1, task 2 in slot 0 again
    assert_eq!((&memory.rings[..], &memory.ends[..]), (&[2, 1][..], &[1, 1, 2][..]));
    assert_refused(&memory, 1, 2, 0, release, 11, 3);
    // a heavy weight isn't read, for no ring is used; a bad counter is read before
    let heavy = Memory {
        weights: vec![1, 2, 4, 65_536],
        ..memory.clone()
    };
    assert_refused(&heavy, 1, 2, 0, release, 11, 3);
    let counter = Memory {
        counters: vec![(1 << 30) + 1],
        ..memory.clone()
    };
    assert_refused(&counter, 1, 2, 0, release, 8, 0);
    for (step, outcome) in [
        (fetch as StepOf, Outcome::Fetched { task: 1 }),
        (start, Outcome::Moved),
        (complete, Outcome::Moved),
        (release, Outcome::Placed { task: 3, owner: 0 }),
    ] {
        assert_eq!(step(&mut Lent::of(&mut memory), 1, 2, 0), Ok(outcome));
    }
    // task 3 in slot 1 again
    assert_eq!((memory.rings, memory.ends), (vec![2, 3], vec![0, 0, 2]));
    assert_eq!(memory.counters, [4 + 8]);
}

/// "empty is count 0, full is count K": with head and tail at one slot the count alone tells which.
#[test]
fn an_empty_ring_and_a_full_one() {
    let lists: [&[u32]; 4] = [&[], &[0], &[0], &[0]];
    let mut memory = memory(&[1; 4], &lists, 1, 2);
    assert_eq!(begin_in(&mut memory, 1, 2), Ok(()));
    memory.rings = vec![2, 3];
    for (ends, task) in [([0, 0, 2], 2), ([1, 1, 2], 3), ([0, 1, 1], 2), ([1, 0, 1], 3)] {
        let mut found = Memory {
            ends: ends.to_vec(),
            ..memory.clone()
        };
        let answer = fetch(&mut Lent::of(&mut found), 1, 2, 0);
        assert_eq!(answer, Ok(Outcome::Fetched { task }), "{ends:?}");
        assert_eq!(found.ends, [1 - ends[0], ends[1], ends[2] - 1]);
    }
    for (ends, number) in [
        ([0, 0, 0], 10),
        ([1, 1, 0], 10),
        ([1, 0, 0], 8),
        ([0, 1, 0], 8),
        ([1, 0, 2], 8),
        ([0, 0, 1], 8),
        ([0, 1, 3], 8),
        ([0, 0, 4], 8),
        ([2, 1, 1], 8),
    ] {
        let found = Memory {
            ends: ends.to_vec(),
            ..memory.clone()
        };
        assert_refused(&found, 1, 2, 0, fetch, number, 0);
    }
}

/// "owners taken j, j+1, … modulo P" and "the counter of the ring really used"
#[test]
fn the_ring_after_a_full_one() {
    let mut memory = completed_diamond();
    // worker 1 has the least sum, but the ring that worker 0 fills for it is full
    memory.counters = vec![7, 0, 0, 0];
    memory.ends[6..9].copy_from_slice(&[2, 2, 4]);
    let answer = release(&mut Lent::of(&mut memory), 2, 4, 0);
    assert_eq!(answer, Ok(Outcome::Placed { task: 1, owner: 0 }));
    assert_eq!(memory.counters, [12, 0, 0, 0]);
    assert_eq!(memory.ends, [1, 2, 1, 0, 0, 0, 2, 2, 4, 0, 0, 0]);
    assert_eq!(memory.rings[1], 1);
}

/// Row 12: "entries word N, phase 2"; it comes before the other words.
#[test]
fn row_12() {
    let mut memory = begun_diamond();
    memory.rows[0] = [2, NIL, 9, 9, 9, 9];
    memory.run = vec![4, 99];
    assert_refused(&memory, 2, 4, 0, complete, 12, 0);
    memory.run = vec![5, 99];
    assert_refused(&memory, 2, 4, 0, complete, 8, 0);
}

/// A change of one word, of the memory that the test names.
type Damage = fn(&mut Memory);

/// Each damage makes the step refused with 8.
#[track_caller]
fn assert_damaged(sound: &Memory, step: StepOf, damages: &[Damage]) {
    assert!(step(&mut Lent::of(&mut sound.clone()), 2, 4, 0).is_ok());
    for (place, damage) in damages.iter().enumerate() {
        let mut memory = sound.clone();
        damage(&mut memory);
        let before = memory.clone();
        let answer = step(&mut Lent::of(&mut memory), 2, 4, 0);
        assert_eq!(answer, refused(8, 0), "damage {place}");
        assert_eq!(memory, before, "damage {place}");
    }
}

#[test]
fn damage_met_by_fetch() {
    let damages: [Damage; 12] = [
        |memory| memory.rows[0][PHASE] = 3,
        |memory| memory.rows[0][POINTER] = 2,
        |memory| memory.ends[0] = 4,
        |memory| memory.ends[1] = u32::MAX,
        // head 0 and tail 1: one task, not none, two, five or any more
        |memory| memory.ends[2] = 0,
        |memory| memory.ends[2] = 2,
        |memory| memory.ends[2] = 5,
        |memory| memory.ends[2] = u32::MAX,
        |memory| memory.rings[0] = 4,
        |memory| memory.rings[0] = NIL,
        |memory| memory.run[ACCEPTED] = 16,
        |memory| memory.run[ACCEPTED] = u32::MAX,
    ];
    assert_damaged(&begun_diamond(), fetch, &damages);
}

/// A heavy weight and a bad counter (i, i) are accepted at Fetch and met at Complete.
#[test]
fn damage_met_after_fetch() {
    let damages: [Damage; 4] = [
        |memory| memory.weights[0] = 65_536,
        |memory| memory.counters[0] = (1 << 30) + 1,
        |memory| memory.counters[0] = -(1 << 30) - 1,
        |memory| memory.counters[0] = i32::MIN,
    ];
    for damage in damages {
        let mut memory = begun_diamond();
        damage(&mut memory);
        let counters = memory.counters.clone();
        for step in [fetch, start] {
            assert!(step(&mut Lent::of(&mut memory), 2, 4, 0).is_ok());
        }
        assert_eq!(memory.counters, counters);
        assert_refused(&memory, 2, 4, 0, complete, 8, 0);
    }
}

#[test]
fn damage_met_by_start_and_complete() {
    let mut memory = begun_diamond();
    memory.rows[0] = [1, 2, 9, 9, 9, 9];
    assert_damaged(&memory, start, &[|memory| memory.run[ACCEPTED] = 16]);
    memory.rows[0] = [2, 2, 9, 3, 3, 9];
    let damages: [Damage; 12] = [
        |memory| memory.run[ENTRIES] = 5,
        |memory| memory.rows[0][HELD] = 4,
        |memory| memory.rows[0][HELD] = NIL,
        |memory| memory.weights[2] = 65_536,
        |memory| memory.counters[0] = (1 << 30) + 1,
        |memory| memory.counters[0] = -(1 << 30) - 1,
        |memory| memory.counters[0] = i32::MIN,
        |memory| memory.succ_starts[2] = 5,
        |memory| memory.succ_starts[3] = 5,
        |memory| memory.rows[0][READ] = 4,
        |memory| memory.rows[0][WRITE] = 4,
        |memory| memory.run[ACCEPTED] = 16,
    ];
    assert_damaged(&memory, complete, &damages);
    // task 3 has no successors, so the places aren't read; its weight leaves counter (0, 0) all the same
    memory.rows[0] = [2, 3, 9, 9, 8, 9];
    let damages: [Damage; 2] = [
        |memory| memory.weights[3] = 65_536,
        |memory| memory.counters[0] = (1 << 30) + 1,
    ];
    assert_damaged(&memory, complete, &damages);
    memory.weights[3] = 7;
    memory.counters = vec![5, i32::MIN, i32::MIN, i32::MIN];
    assert!(complete(&mut Lent::of(&mut memory), 2, 4, 0).is_ok());
    assert_eq!(memory.rows[0], [0, NIL, 9, 9, 8, 9]);
    assert_eq!(memory.counters, [-2, i32::MIN, i32::MIN, i32::MIN]);
}

#[test]
fn damage_met_by_release() {
    let damages: [Damage; 21] = [
        |memory| memory.rows[0][READ] = 2,
        |memory| memory.rows[0][WRITE] = 5,
        |memory| memory.buffers[0] = 4,
        |memory| memory.buffers[0] = 3,
        |memory| memory.succ_starts[0] = 3,
        |memory| memory.succ_starts[1] = 5,
        |memory| memory.rows[0][CURSOR] = 2,
        |memory| memory.succs[0] = 4,
        |memory| memory.degrees[1] = 0,
        |memory| memory.degrees[1] = 5,
        |memory| memory.counters[3] = (1 << 30) + 1,
        |memory| memory.counters[1] = -(1 << 30) - 1,
        |memory| memory.ends[0] = 4,
        |memory| memory.ends[1] = 4,
        // head 1 and tail 1: none or all four
        |memory| memory.ends[2] = 1,
        |memory| memory.ends[2] = 5,
        |memory| memory.ends[2] = 8,
        |memory| memory.weights[1] = 65_536,
        |memory| memory.run[ACCEPTED] = 16,
        |memory| memory.run[ACCEPTED] = 17,
        |memory| memory.rows[0][PHASE] = u32::MAX,
    ];
    assert_damaged(&completed_diamond(), release, &damages);
}

/// The largest values that aren't damaged: a degree of N, and counters whose sums need more than 32 bits.
#[test]
fn sound_at_the_limits() {
    let mut memory = completed_diamond();
    memory.degrees[1] = 4;
    // where the degree stays above 0, no weight, counter or end is read
    memory.weights[1] = u32::MAX;
    memory.counters = vec![i32::MIN; 4];
    memory.ends = vec![u32::MAX; 12];
    let answer = release(&mut Lent::of(&mut memory), 2, 4, 0);
    assert_eq!(answer, Ok(Outcome::DegreeLeft { degree: 3 }));
    memory = completed_diamond();
    memory.counters = vec![1 << 30, 1 << 30, 1 << 30, (1 << 30) - 1];
    let answer = release(&mut Lent::of(&mut memory), 2, 4, 0);
    assert_eq!(answer, Ok(Outcome::Placed { task: 1, owner: 1 }));
    assert_eq!(memory.counters[2], (1 << 30) + 5);
    memory = begun_diamond();
    memory.counters[0] = -(1 << 30);
    memory.weights[0] = 65_535;
    for step in [fetch, start, complete] {
        assert!(step(&mut Lent::of(&mut memory), 2, 4, 0).is_ok());
    }
    assert_eq!(memory.counters[0], -(1 << 30) - 65_535);
}

/// N 0: begun is finished.
#[test]
fn no_tasks() {
    let mut memory = unweighted(&[], 2, 4);
    assert_eq!(begin_in(&mut memory, 2, 4), Ok(()));
    assert_eq!(memory.succ_starts, [0]);
    assert_eq!(memory.run, [0, 0]);
    assert_refused(&memory, 2, 4, 0, fetch, 10, 0);
    assert_refused(&memory, 2, 4, 0, release, 10, 0);
    memory.rows[0][PHASE] = 1;
    assert_refused(&memory, 2, 4, 0, start, 8, 0);
    memory.rows[0][PHASE] = 2;
    assert_refused(&memory, 2, 4, 0, complete, 12, 0);
}

/// The most tasks, the most edges, the most slots: each list's last word is written.
#[test]
fn the_largest_begin() {
    let mut lists: Vec<Vec<u32>> = (0..1_024u32)
        .map(|task| (task.saturating_sub(8)..task).collect())
        .collect();
    let missing = 8_192 - lists.iter().map(Vec::len).sum::<usize>() as u32;
    lists[1_023].extend(0..missing);
    let lists: Vec<&[u32]> = lists.iter().map(Vec::as_slice).collect();
    let mut memory = unweighted(&lists, 16, 64);
    assert_eq!(begin_in(&mut memory, 16, 64), Ok(()));
    assert_eq!(memory.succ_starts[1_024], 8_192);
    assert_eq!(memory.succs[8_191], 1_023);
    assert_eq!(memory.degrees[1_023], 8 + missing);
    assert_eq!(memory.rings.last(), Some(&0));
    assert_eq!(memory.rows[15], [0, NIL, 0, 0, 0, 0]);
    for list in [&memory.rings, &memory.buffers, &memory.executed, &memory.run] {
        assert!(list.iter().all(|&word| word == 0));
    }
}
