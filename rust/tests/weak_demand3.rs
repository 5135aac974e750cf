//! The promises of weak jobs by brute force: the copies of a graph and their orders, many runs of many graphs, and engines with one
//! fault each, which the check has to find. The wrong programs of No. 6 are in `weak_paper`.

#[path = "common/demand3.rs"]
mod common;

use common::{all_accepted, assert_joined, assert_says, far_apart, memory, with_step, FAR_APART};
use engine_model::engine::Engine;
use engine_model::engines;
use engine_model::memory::{Lists, Step, ACCEPTED, ENTRIES, NIL};
use engine_model::model::Refusal;
use engine_model::runs::{next_weak_case, weak_runs_of_one_graph, Case, Reply};
use engine_model::weak::{self, Copied, Memory, Outcome, MODEL, PHASE, UNFIXED};
use engine_model::weak_demand3::{play, Copies, Finished};
use std::collections::{BTreeSet, HashSet};

fn copies(lists: &[&[u32]]) -> Copies {
    Copies::of(&memory(lists, 0, 1, 2))
}

fn list(pairs: &[[u32; 2]]) -> Vec<Copied> {
    pairs.iter().map(|&[task, pred]| Copied { task, pred }).collect()
}

/// Tasks 1 and 2 after 0, 3 after 1 and 2: five copies.
const DIAMOND: [&[u32]; 4] = [&[], &[0], &[0], &[2, 1]];

/// "a copy stays behind all copies of its predecessor, and copies of one task may pass each other"
#[test]
fn the_diamond_s_orders() {
    let diamond = copies(&DIAMOND);
    assert_eq!(diamond.count(), 5);
    for pairs in [
        [[0, NIL], [1, 0], [2, 0], [3, 1], [3, 2]],
        [[0, NIL], [1, 0], [2, 0], [3, 2], [3, 1]],
        [[0, NIL], [2, 0], [1, 0], [3, 1], [3, 2]],
        // the copy with 1 needn't wait for task 2
        [[0, NIL], [1, 0], [3, 1], [2, 0], [3, 2]],
        [[0, NIL], [2, 0], [3, 2], [1, 0], [3, 1]],
    ] {
        assert!(diamond.allow(&list(&pairs)), "{pairs:?}");
    }
    for pairs in [
        // before its predecessor
        &[[0, NIL], [3, 1], [1, 0], [2, 0], [3, 2]][..],
        &[[1, 0], [0, NIL], [2, 0], [3, 1], [3, 2]],
        // a copy missing, one twice, and one that isn't of the graph
        &[[0, NIL], [1, 0], [2, 0], [3, 1]],
        &[[0, NIL], [1, 0], [2, 0], [3, 1], [3, 1]],
        &[[0, NIL], [1, 0], [2, 0], [3, 1], [3, 2], [3, 2]],
        &[[0, NIL], [1, 0], [2, 0], [3, 1], [3, 0]],
        &[[0, NIL], [1, NIL], [2, 0], [3, 1], [3, 2]],
        &[[0, 0], [1, 0], [2, 0], [3, 1], [3, 2]],
    ] {
        assert!(!diamond.allow(&list(pairs)), "{pairs:?}");
    }
}

/// A successor's copy waits for all copies of the task that it comes after.
#[test]
fn a_copy_is_behind_all_copies_of_its_predecessor() {
    // 2 after 0 and 1, 3 after 2
    let copies = copies(&[&[], &[], &[0, 1], &[2]]);
    assert!(copies.allow(&list(&[[1, NIL], [2, 1], [0, NIL], [2, 0], [3, 2]])));
    assert!(!copies.allow(&list(&[[1, NIL], [2, 1], [0, NIL], [3, 2], [2, 0]])));
    assert!(!copies.allow(&list(&[[1, NIL], [2, 1], [3, 2], [0, NIL], [2, 0]])));
}

#[test]
fn exchanges_are_as_many_as_the_pairs() {
    let diamond = copies(&DIAMOND);
    let one = list(&[[0, NIL], [1, 0], [2, 0], [3, 1], [3, 2]]);
    let other = list(&[[0, NIL], [2, 0], [3, 2], [1, 0], [3, 1]]);
    assert_eq!(diamond.join(&one, &one), Ok(0));
    // (1,0) and (2,0), (1,0) and (3,2), (3,1) and (3,2)
    assert_eq!(diamond.join(&one, &other), Ok(3));
    assert_eq!(diamond.join(&other, &one), Ok(3));
    assert!(diamond
        .join(&one, &list(&[[0, NIL], [3, 2], [2, 0], [1, 0], [3, 1]]))
        .is_err());
    assert_eq!(copies(&[]).join(&[], &[]), Ok(0));
    let loose = copies(&[&[], &[], &[]]);
    let rising = list(&[[0, NIL], [1, NIL], [2, NIL]]);
    assert_eq!(loose.join(&rising, &list(&[[2, NIL], [1, NIL], [0, NIL]])), Ok(3));
}

fn finished(case: &Case<Memory>) -> Vec<Finished> {
    play(&MODEL, case).unwrap_or_else(|wrong| panic!("{wrong}"))
}

/// "for every two such lists whose finished runs are of one graph, whatever worker counts and queue lengths were accepted"
#[test]
fn any_two_records_of_one_graph_are_joined() {
    let finished = |seed, most| {
        weak_runs_of_one_graph(seed, most, 4)
            .iter()
            .flat_map(finished)
            .collect()
    };
    let exchanges = |one: &Finished, other: &Finished| {
        assert_eq!(one.copies, other.copies, "the runs are of one graph");
        let exchanges = one.copies.join(&one.order, &other.order);
        exchanges.unwrap_or_else(|wrong| panic!("{wrong}"))
    };
    assert_joined(400, [2, 5, 8, 12, 16], finished, exchanges);
}

/// Refused calls, other P and K, refused begins and further begins among the steps; runs are finished with N, E, P and K at both
/// ends of their limits.
#[test]
fn honest_runs_keep_the_promises() {
    let mut sizes = Vec::new();
    for case in (20_000..20_640).map(next_weak_case).filter(Case::is_honest) {
        sizes.extend(
            finished(&case)
                .iter()
                .map(|_| [case.memory.n(), case.memory.e(), case.p, case.k]),
        );
    }
    assert!(sizes.len() >= 250, "{} runs are finished", sizes.len());
    let limits = [(0, 1_024), (0, 8_192), (1, 16), (2, 64)];
    for (at, (least, most)) in limits.into_iter().enumerate() {
        assert_eq!(sizes.iter().map(|size| size[at]).min(), Some(least));
        assert_eq!(sizes.iter().map(|size| size[at]).max(), Some(most));
    }
}

/// Every weak engine keeps the promises, in unfinished runs too: the same runs cut at any place.
#[test]
fn unfinished_runs_keep_the_promises() {
    for engine in engines::weak() {
        for seed in 0..60 {
            for mut case in weak_runs_of_one_graph(seed, 8, 2) {
                let whole = case.calls.len();
                case.calls.truncate(whole - whole * (seed as usize % 7) / 7);
                play(&engine, &case).unwrap_or_else(|wrong| panic!("{}: {wrong}", engine.name));
            }
        }
    }
}

/// What a run can come to.
struct Reached {
    /// The orders of the finished records.
    orders: BTreeSet<Vec<Copied>>,
    /// How often a first copy and a later one met 11.
    full: [usize; 2],
}

/// All that the steps of all workers in any order can lead to from an accepted begin. In each state that isn't finished some step is accepted, in a finished one none.
fn every_state(lists: &[&[u32]], weights: &[u32], p: usize, k: usize) -> Reached {
    let mut first: Memory = memory(lists, 0, p, k);
    first.weights.copy_from_slice(weights);
    weak::begin(&mut first, p, k).expect("the graph is sound and has few roots");
    let copies = Copies::of(&first);
    let roots = lists.iter().filter(|list| list.is_empty()).count();
    let steps = 4 * first.e() + 3 * roots;
    let mut orders = BTreeSet::new();
    let mut full = [0, 0];
    let mut seen = HashSet::from([first.clone()]);
    let mut waiting = vec![first];
    while let Some(state) = waiting.pop() {
        let mut moved = false;
        for worker in 0..p as u32 {
            for step in Step::ALL {
                let mut next = state.clone();
                match weak::step(&mut next, p, k, worker, step) {
                    Ok(_) => {
                        moved = true;
                        if !seen.contains(&next) {
                            seen.insert(next.clone());
                            waiting.push(next);
                        }
                    }
                    Err(Refusal { number: 11, detail }) => {
                        full[usize::from(state.fixed[detail as usize] != UNFIXED)] += 1;
                    }
                    // in a run no word is damaged and no record full
                    Err(Refusal { number, .. }) => assert!([9, 10].contains(&number), "{state:?}"),
                }
            }
        }
        let [entries, accepted] = [ENTRIES, ACCEPTED].map(|word| state.run[word] as usize);
        assert_eq!(moved, entries < copies.count(), "{state:?}");
        assert_eq!(moved, accepted < steps, "{state:?}");
        if !moved {
            let entries = state.executed.chunks_exact(3).take(entries);
            let order = entries.map(|entry| Copied {
                task: entry[0],
                pred: entry[1],
            });
            orders.insert(order.collect());
        }
    }
    Reached { orders, full }
}

/// Small graphs by every list of calls: the diamond; tasks after both of two roots, with rings that first or later copies find full; a
/// chain beside a root. Every order is allowed, and any two are joined.
#[test]
fn every_list_of_calls_of_small_graphs() {
    let both: [&[u32]; 5] = [&[], &[], &[0, 1], &[0, 1], &[0, 1]];
    let mut full = [0, 0];
    for (lists, weights, p, k, orders) in [
        (&DIAMOND[..], &[0, 5, 3, 0][..], 1, 2, 1),
        // all orders that there are
        (&DIAMOND, &[0, 5, 3, 0], 2, 4, 6),
        (&DIAMOND, &[1; 4], 3, 2, 6),
        (&DIAMOND, &[0; 4], 2, 2, 1),
        (&[&[], &[0], &[1], &[]], &[3; 4], 2, 2, 4),
        (&[&[], &[0], &[0], &[0], &[1, 2, 3]], &[1; 5], 2, 2, 20),
        (&both[..4], &[1; 4], 2, 2, 60),
        (&both, &[0; 5], 1, 2, 1),
        (&both, &[0, 9, 0, 0, 0], 2, 2, 20),
    ] {
        let reached = every_state(lists, weights, p, k);
        assert!(reached.orders.len() >= orders, "{} orders", reached.orders.len());
        let copies = copies(lists);
        let orders: Vec<_> = reached.orders.into_iter().collect();
        for pair in orders.windows(2) {
            assert!(copies.join(&pair[0], &pair[1]).is_ok());
        }
        assert!(orders.iter().all(|order| copies.allow(order)));
        full = [full[0] + reached.full[0], full[1] + reached.full[1]];
    }
    assert!(full.iter().all(|&met| met > 0), "{full:?}");
}

/// A refused call of a drawn list leaves every word, damaged or not, and every number is met.
#[test]
fn refused_calls_leave_every_word() {
    let mut counts = [0; 13];
    for seed in 0..1_600 {
        let case = next_weak_case(seed);
        let mut memory = case.memory.clone();
        let mut before = memory.clone();
        for call in &case.calls {
            let reply = call.make(&MODEL, &mut memory);
            if reply != Reply::Changed {
                counts[reply.refusal().map_or(0, |refusal| refusal.number as usize)] += 1;
            }
            if reply.refusal().is_some() {
                assert!(memory == before, "{call:?} is refused and writes");
            } else {
                before.clone_from(&memory);
            }
        }
    }
    for (number, &count) in counts.iter().enumerate() {
        assert!(count >= 50, "number {number} is met {count} times");
    }
}

/// The same seed gives the same case, and the next one another.
#[test]
fn cases_come_from_their_seeds() {
    for seed in 0..32 {
        let (one, again, next) = (next_weak_case(seed), next_weak_case(seed), next_weak_case(seed + 16));
        assert_eq!((&one.memory, &one.calls), (&again.memory, &again.calls));
        assert!(one.memory != next.memory || one.calls != next.calls);
    }
}

#[test]
fn counters_far_apart() {
    let case = far_apart();
    for engine in engines::weak() {
        let finished = play(&engine, &case).unwrap_or_else(|wrong| panic!("{}: {wrong}", engine.name));
        assert_eq!(finished.len(), 1);
        let memory = all_accepted(&engine, &case);
        assert_eq!(memory.counters, FAR_APART);
        assert_eq!(memory.run, [1_024, 4 * 1_021 + 9, 3]);
    }
}

// Engines with one fault each.

/// What the check finds wrong with this engine in some run.
fn found(faulty: Engine<Memory>) -> Option<String> {
    let cases = (0..200).flat_map(|seed| weak_runs_of_one_graph(seed, 12, 2));
    cases.filter_map(|case| play(&faulty, &case).err()).next()
}

/// The check finds this fault, and says so in these words.
fn assert_found(faulty: Engine<Memory>, words: &str) {
    assert_says(found(faulty), words);
}

#[test]
fn no_engine_is_faulty() {
    for engine in engines::weak() {
        assert_eq!(found(engine), None, "{}", engine.name);
    }
}

/// A refusal that writes: the task is fixed, then its rings are found full.
#[test]
fn a_refusal_that_fixes_a_worker_is_found() {
    assert_found(
        with_step(|memory, p, k, worker, step| {
            let answer = weak::step(memory, p, k, worker, step);
            if let Err(Refusal { number: 11, detail }) = answer {
                memory.fixed[detail as usize] ^= 1;
            }
            answer
        }),
        "is refused and writes",
    );
}

/// "Adding the weight to target j when the ring of j+1 took the task": here always to the next worker's counter.
#[test]
fn a_weight_on_another_worker_is_found() {
    assert_found(
        with_step(|memory, p, k, worker, step| {
            let before = memory.counters.clone();
            let answer = weak::step(memory, p, k, worker, step);
            if let Ok(Outcome::Placed { owner, .. }) = answer {
                let (ring, next) = (owner as usize * p, (owner as usize + 1) % p * p);
                let joined = memory.counters[ring + worker as usize] - before[ring + worker as usize];
                memory.counters[ring + worker as usize] -= joined;
                memory.counters[next + worker as usize] += joined;
            }
            answer
        }),
        "counters of worker",
    );
}

/// "a Fetch that reports 10 with […] tasks waiting"
#[test]
fn a_fetch_refused_with_copies_waiting_is_found() {
    assert_found(
        with_step(|memory, p, k, worker, step| {
            let answer = weak::step(&mut memory.clone(), p, k, worker, step);
            if answer.is_ok() && step == Step::Fetch && memory.run[ENTRIES] > 2 {
                return Err(Refusal { number: 10, detail: 0 });
            }
            weak::step(memory, p, k, worker, step)
        }),
        "",
    );
}

/// "an accepted word that is invented"
#[test]
fn an_invented_accepted_word_is_found() {
    assert_found(
        with_step(|memory, p, k, worker, step| {
            let answer = weak::step(memory, p, k, worker, step);
            if answer.is_ok() && step == Step::Release {
                memory.run[ACCEPTED] += 1;
            }
            answer
        }),
        "run words",
    );
}

/// The wrong worker in the record.
#[test]
fn a_wrong_worker_is_found() {
    assert_found(
        with_step(|memory, p, k, worker, step| {
            let answer = weak::step(memory, p, k, worker, step);
            if answer.is_ok() && step == Step::Complete {
                let entry = memory.run[ENTRIES] as usize - 1;
                memory.executed[3 * entry + 2] = 0;
            }
            answer
        }),
        "the record is",
    );
}

/// A copy made before its predecessor is complete: the first copy that completes puts the task in the buffer.
#[test]
fn a_task_that_completes_early_is_found() {
    let faulty = Engine {
        begin: |memory, p, k| {
            weak::begin(memory, p, k)?;
            memory.degrees.iter_mut().for_each(|degree| *degree = (*degree).min(1));
            Ok(())
        },
        ..MODEL
    };
    assert_found(faulty, "the degrees are");
}

/// A refusal that changes the phase, and one with another number.
#[test]
fn wrong_refusals_are_found() {
    assert_found(
        with_step(|memory, p, k, worker, step| {
            let answer = weak::step(memory, p, k, worker, step);
            if let (Err(Refusal { number: 10, .. }), Some(row)) = (answer, memory.rows.get_mut(worker as usize)) {
                row[PHASE] ^= 1;
            }
            answer
        }),
        "is refused and writes",
    );
    assert_found(
        with_step(
            |memory, p, k, worker, step| match weak::step(memory, p, k, worker, step) {
                Err(Refusal { number: 11, .. }) => Err(Refusal { number: 10, detail: 0 }),
                answer => answer,
            },
        ),
        "is refused with 10, 0",
    );
    assert_found(
        with_step(
            |memory, p, k, worker, step| match weak::step(memory, p, k, worker, step) {
                Err(Refusal { number: 9, detail }) => Err(Refusal { number: 8, detail }),
                answer => answer,
            },
        ),
        "is refused with 8",
    );
}

/// Another copy answered than the one taken.
#[test]
fn another_copy_answered_is_found() {
    assert_found(
        with_step(|memory, p, k, worker, step| {
            Ok(match weak::step(memory, p, k, worker, step)? {
                Outcome::Fetched { copy } => Outcome::Fetched {
                    copy: Copied { task: 0, ..copy },
                },
                outcome => outcome,
            })
        }),
        "at the head of a ring",
    );
}
