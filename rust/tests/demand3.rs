//! Demand 3 by brute force: many runs of many graphs, and engines with one fault each, which the check has to find.

#[path = "common/demand3.rs"]
mod common;

use common::{all_accepted, assert_joined, assert_says, far_apart, with_step, FAR_APART};
use engine_model::demand3::{play, Edges, Finished};
use engine_model::engine::{self, Engine, MODEL};
use engine_model::engines;
use engine_model::memory::{Memory, Outcome, Step, ACCEPTED, ENTRIES, HELD, PHASE};
use engine_model::model::Refusal;
use engine_model::runs::runs_of_one_graph;

fn edges(lists: &[&[u32]]) -> Edges {
    Edges::of(&common::memory(lists, 0, 1, 2))
}

/// Tasks 1 and 2 after 0, 3 after 1 and 2.
fn diamond() -> Edges {
    edges(&[&[], &[0], &[0], &[1, 2]])
}

#[test]
fn the_diamond_allows_two_lists() {
    assert!(diamond().allow(&[0, 1, 2, 3]));
    assert!(diamond().allow(&[0, 2, 1, 3]));
    for list in [
        &[1, 0, 2, 3][..],
        &[0, 1, 3, 2],
        &[0, 1, 2],
        &[0, 1, 1, 3],
        &[0, 1, 2, 3, 3],
        &[0, 1, 2, 4],
    ] {
        assert!(!diamond().allow(list), "{list:?}");
    }
}

#[test]
fn exchanges_are_as_many_as_the_pairs() {
    assert_eq!(diamond().join(&[0, 1, 2, 3], &[0, 1, 2, 3]), Ok(0));
    assert_eq!(diamond().join(&[0, 1, 2, 3], &[0, 2, 1, 3]), Ok(1));
    assert_eq!(edges(&[]).join(&[], &[]), Ok(0));
    let loose = edges(&[&[], &[], &[], &[]]);
    assert_eq!(loose.join(&[0, 1, 2, 3], &[3, 2, 1, 0]), Ok(6));
    assert_eq!(loose.join(&[0, 1, 2, 3], &[1, 2, 3, 0]), Ok(3));
    // 1 after 0, 3 after 2: the pairs (0, 2), (0, 3), (1, 2) and (1, 3) differ
    assert_eq!(edges(&[&[], &[0], &[], &[2]]).join(&[0, 1, 2, 3], &[2, 3, 0, 1]), Ok(4));
    assert!(diamond().join(&[0, 1, 2, 3], &[1, 0, 2, 3]).is_err());
    assert!(diamond().join(&[0, 3, 1, 2], &[0, 1, 2, 3]).is_err());
}

/// The finished runs among so many of the graph with this seed.
fn finished(seed: u64, most: usize, count: usize) -> Vec<Finished> {
    let cases = runs_of_one_graph(seed, most, count);
    let played = |case| play(&MODEL, case).unwrap_or_else(|wrong| panic!("{wrong}"));
    cases.iter().flat_map(played).collect()
}

/// "for every two such lists whose finished runs are of one graph, whatever worker counts and queue lengths were accepted"
#[test]
fn any_two_records_of_one_graph_are_joined() {
    let exchanges = |one: &Finished, other: &Finished| {
        assert_eq!(one.edges, other.edges, "the runs are of one graph");
        let exchanges = one.edges.join(&one.order, &other.order);
        exchanges.unwrap_or_else(|wrong| panic!("{wrong}"))
    };
    assert_joined(500, [2, 6, 12, 24, 40], |seed, most| finished(seed, most, 4), exchanges);
}

/// A few hundred tasks, the records far apart.
#[test]
fn two_records_of_a_larger_graph_are_joined() {
    for seed in 600..606 {
        for pair in finished(seed, 90, 3).windows(2) {
            assert!(pair[0].edges.join(&pair[0].order, &pair[1].order).is_ok());
        }
    }
}

#[test]
fn counters_far_apart() {
    let case = far_apart();
    for engine in engines::all() {
        let finished = play(&engine, &case).unwrap_or_else(|wrong| panic!("{}: {wrong}", engine.name));
        assert_eq!(finished.len(), 1);
        assert_eq!(all_accepted(&engine, &case).counters, FAR_APART);
    }
}

/// What the check finds wrong with this engine in some run.
fn found(faulty: Engine) -> Option<String> {
    let cases = (0..100).flat_map(|seed| runs_of_one_graph(seed, 12, 2));
    cases.filter_map(|case| play(&faulty, &case).err()).next()
}

/// The check finds this fault, and says so in these words.
fn assert_found(faulty: Engine, words: &str) {
    assert_says(found(faulty), words);
}

#[test]
fn the_model_is_not_faulty() {
    assert_eq!(found(MODEL), None);
    assert_eq!(found(with_step(engine::step)), None);
}

/// "Lowering the degree, then finding all rings full."
#[test]
fn a_refusal_that_lowers_the_degree_is_found() {
    assert_found(
        with_step(|memory, p, k, worker, step| {
            let answer = engine::step(memory, p, k, worker, step);
            if let Err(Refusal { number: 11, detail }) = answer {
                memory.degrees[detail as usize] -= 1;
            }
            answer
        }),
        "is refused and writes",
    );
}

/// "Adding the weight to target j when the ring of j+1 took the task": here always to the next worker's counter.
#[test]
fn a_weight_on_another_worker_is_found() {
    assert_found(
        with_step(|memory, p, k, worker, step| {
            let answer = engine::step(memory, p, k, worker, step);
            if let Ok(Outcome::Placed { task, owner }) = answer {
                let weight = memory.weights[task as usize] as i32;
                let next = (owner as usize + 1) % p;
                memory.counters[owner as usize * p + worker as usize] -= weight;
                memory.counters[next * p + worker as usize] += weight;
            }
            answer
        }),
        "counters of worker",
    );
}

/// The model's step, and the task that it has completed, if any.
fn completing(
    memory: &mut Memory,
    p: usize,
    k: usize,
    worker: u32,
    step: Step,
) -> (Result<Outcome, Refusal>, Option<usize>) {
    let held = memory.rows.get(worker as usize).map(|row| row[HELD] as usize);
    let answer = engine::step(memory, p, k, worker, step);
    let done = matches!(step, Step::Complete) && answer.is_ok();
    (answer, held.filter(|_| done))
}

/// "From now on the weight leaves counter (i, i) at Complete", and no longer at Fetch.
#[test]
fn a_weight_that_leaves_at_fetch_is_found() {
    assert_found(
        with_step(|memory, p, k, worker, step| {
            let (answer, completed) = completing(memory, p, k, worker, step);
            let own = worker as usize * p + worker as usize;
            if let Some(task) = completed {
                memory.counters[own] += memory.weights[task] as i32;
            }
            if let Ok(Outcome::Fetched { task }) = answer {
                memory.counters[own] -= memory.weights[task as usize] as i32;
            }
            answer
        }),
        "counters of worker",
    );
}

/// The weight of a task without successors leaves too.
#[test]
fn a_weight_that_stays_is_found() {
    assert_found(
        with_step(|memory, p, k, worker, step| {
            let (answer, completed) = completing(memory, p, k, worker, step);
            match completed {
                Some(task) if memory.succ_starts[task] == memory.succ_starts[task + 1] => {
                    memory.counters[worker as usize * p + worker as usize] += memory.weights[task] as i32;
                }
                _ => {}
            }
            answer
        }),
        "counters of worker",
    );
}

/// "an accepted word that is invented"
#[test]
fn an_invented_accepted_word_is_found() {
    assert_found(
        with_step(|memory, p, k, worker, step| {
            let answer = engine::step(memory, p, k, worker, step);
            if answer.is_ok() && step == Step::Start {
                memory.run[ACCEPTED] += 1;
            }
            answer
        }),
        "run words",
    );
}

/// "a Fetch that reports 10 with […] tasks waiting"
#[test]
fn a_fetch_refused_with_tasks_waiting_is_found() {
    assert_found(
        with_step(|memory, p, k, worker, step| {
            if step == Step::Fetch && memory.run[ENTRIES] > 2 {
                return Err(Refusal { number: 10, detail: 0 });
            }
            engine::step(memory, p, k, worker, step)
        }),
        "no step would be accepted",
    );
}

/// "a step accepted with nothing moved"
#[test]
fn a_step_that_moves_nothing_is_found() {
    assert_found(
        with_step(|memory, p, k, worker, step| {
            let answer = engine::step(memory, p, k, worker, step);
            if answer.is_ok() && step == Step::Complete {
                memory.run[ENTRIES] -= 1;
            }
            answer
        }),
        "run words",
    );
}

/// A Release that places a task while a predecessor isn't done yet.
#[test]
fn a_task_before_its_predecessors_is_found() {
    let faulty = Engine {
        begin: |memory, p, k| {
            engine::begin(memory, p, k)?;
            memory.degrees.iter_mut().for_each(|degree| *degree = (*degree).min(1));
            Ok(())
        },
        ..MODEL
    };
    assert_found(faulty, "");
}

/// The wrong worker in the record.
#[test]
fn a_wrong_worker_is_found() {
    assert_found(
        with_step(|memory, p, k, worker, step| {
            let answer = engine::step(memory, p, k, worker, step);
            if answer.is_ok() && step == Step::Complete {
                let entry = memory.run[ENTRIES] as usize - 1;
                memory.executed[2 * entry + 1] = 0;
            }
            answer
        }),
        "the record isn't",
    );
}

/// A refusal that changes the phase.
#[test]
fn a_refusal_that_moves_the_phase_is_found() {
    assert_found(
        with_step(|memory, p, k, worker, step| {
            let answer = engine::step(memory, p, k, worker, step);
            if let (Err(Refusal { number: 10, .. }), Some(row)) = (answer, memory.rows.get_mut(worker as usize)) {
                row[PHASE] ^= 1;
            }
            answer
        }),
        "is refused and writes",
    );
}
