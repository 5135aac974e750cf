//! The drawn lists of calls on the model: a refused call leaves every word, an honest run keeps demand 3.

use engine_model::damages;
use engine_model::demand3;
use engine_model::engine::MODEL;
use engine_model::memory::{List, Memory, Step, HELD};
use engine_model::runs::{next_case, Call, Case, Reply};
use std::collections::BTreeSet;

/// How often each number was answered, at 0 the accepted calls.
type Counts = [usize; 13];

/// Plays the case; refused: "all lent memory keeps its words."
fn play(case: &Case, counts: &mut Counts) -> Memory {
    let mut memory = case.memory.clone();
    let mut before = memory.clone();
    for call in &case.calls {
        let reply = call.make(&MODEL, &mut memory);
        if reply != Reply::Changed {
            counts[reply.refusal().map_or(0, |refusal| refusal.number as usize)] += 1;
        }
        if reply.refusal().is_some() {
            assert!(memory == before, "{call:?} is refused and writes");
        } else {
            before.clone_from(&memory);
        }
    }
    memory
}

#[test]
fn refused_calls_leave_every_word() {
    let mut counts = [0; 13];
    for seed in 0..1_600 {
        play(&next_case(seed), &mut counts);
    }
    for (number, &count) in counts.iter().enumerate() {
        assert!(count >= 50, "number {number} is met {count} times");
    }
}

/// Runs are finished with N, E, P and K at both ends of their limits.
#[test]
fn honest_runs_keep_demand_3() {
    let mut sizes = Vec::new();
    for case in (10_000..11_024).map(next_case).filter(Case::is_honest) {
        let finished = demand3::play(&MODEL, &case).unwrap_or_else(|wrong| panic!("{wrong}"));
        sizes.extend(
            finished
                .iter()
                .map(|_| [case.memory.n(), case.memory.e(), case.p, case.k]),
        );
    }
    assert!(sizes.len() >= 400, "{} runs are finished", sizes.len());
    let limits = [(0, 1_024), (0, 8_192), (1, 16), (2, 64)];
    for (at, (least, most)) in limits.into_iter().enumerate() {
        assert_eq!(sizes.iter().map(|size| size[at]).min(), Some(least));
        assert_eq!(sizes.iter().map(|size| size[at]).max(), Some(most));
    }
}

/// The same seed gives the same case, and the next one another.
#[test]
fn cases_come_from_their_seeds() {
    for seed in 0..32 {
        let (one, again, next) = (next_case(seed), next_case(seed), next_case(seed + 16));
        assert_eq!(one.memory, again.memory);
        assert_eq!(one.calls, again.calls);
        assert!(one.memory != next.memory || one.calls != next.calls);
    }
}

/// A weight or counter (i, i) that is damaged, a worker, and whether the task at hand has successors.
type Met = BTreeSet<(&'static str, u32, bool)>;

/// Every step on damaged words: some Fetches are accepted with a heavy weight or a bad counter (i, i), and some Completes are
/// refused for one of these words alone, by each worker, of tasks with successors and of others.
#[test]
fn damaged_words_meet_the_weight_that_leaves() {
    let (mut fetched, mut completed) = (Met::new(), Met::new());
    for Case { memory, p, k, calls } in damages::cases() {
        let [Call::Step { worker, step, .. }] = calls[..] else {
            panic!("{calls:?}");
        };
        let stepped = |mut words: Memory| ((MODEL.step)(&mut words, p, k, worker, step), words);
        let i = worker as usize;
        let (answer, after) = stepped(memory.clone());
        // what is fetched here, or what a refused Complete finds
        let task = after.rows[i][HELD] as usize;
        if task >= memory.n() {
            continue;
        }
        let inner = memory.succ_starts[task] < memory.succ_starts[task + 1];
        let heavy = memory.weights[task] > 65_535;
        let beyond = memory.counters[i * p + i].unsigned_abs() > 1 << 30;
        for (name, damaged, list, place) in [
            ("weight", heavy, List::Weights, task),
            ("counter", beyond, List::Counters, i * p + i),
        ] {
            let mut repaired = memory.clone();
            repaired.replace(list, place, 1);
            match (step, answer.is_ok(), stepped(repaired).0.is_ok()) {
                (Step::Fetch, true, true) if damaged => fetched.insert((name, worker, inner)),
                (Step::Complete, false, true) if damaged => completed.insert((name, worker, inner)),
                _ => continue,
            };
        }
    }
    let every = |name| [(0, false), (0, true), (1, false), (1, true)].map(|(worker, inner)| (name, worker, inner));
    let all: Met = ["weight", "counter"].into_iter().flat_map(every).collect();
    assert_eq!((&fetched, &completed), (&all, &all));
}
