//! docs/RULE.md: its tables are the model's, and what it says can be foreseen is what every engine does.

use engine_model::draw::Draw;
use engine_model::engine::Engine;
use engine_model::engines;
use engine_model::memory::{Memory, Outcome, Step, HELD, NIL};
use engine_model::model::{Refusal, Table};
use engine_model::pages;
use engine_model::rule::{diamond, fallback, long_task, past_the_last, room, running, tie, Example, View};
use engine_model::runs::{next_case, Call, Case, Reply};
use engine_model::weak::Copied;
use engine_model::weak_rule::{seam, Row};

#[test]
fn the_tables_of_the_page_are_the_model_s() {
    assert_eq!(pages::rule().check(), Ok(()));
}

/// Of a placement: the loads before it, the target, the task and its owner.
type Expected<'a> = (&'a [i64], u32, u32, Option<u32>);

fn assert_places(example: &Example, expected: &[Expected]) {
    assert_eq!(example.placements.len(), expected.len());
    for (placement, &(loads, target, task, owner)) in example.placements.iter().zip(expected) {
        assert_eq!(placement.view.loads(), loads);
        assert_eq!(placement.view.target(), target);
        assert_eq!((placement.task, placement.owner), (task, owner));
        assert_eq!(placement.view.foreseen(), owner);
    }
}

/// Task 1 weighs 5, task 2 weighs 3; both are completed, by workers 0 and 1, before worker 0 releases 3.
#[test]
fn the_diamond_s_placements() {
    let expected: [Expected; 3] = [
        (&[0, 0], 0, 1, Some(0)),
        (&[5, 0], 1, 2, Some(1)),
        (&[0, 0], 0, 3, Some(0)),
    ];
    assert_places(&diamond(), &expected);
}

/// Worker 0 has its root of weight 60 in its hand, and worker 1 has completed its own.
#[test]
fn the_placement_beside_a_long_task() {
    let expected: [Expected; 1] = [(&[60, 0], 1, 2, Some(1))];
    let example = long_task();
    assert_places(&example, &expected);
    let before = &example.placements[0];
    assert_eq!(before.fetched, [(0, 0), (1, 1)]);
    assert_eq!([0, 1].map(|worker| before.view.hand(worker)), [Some(0), None]);
    assert_told("so the load of worker 0 is 60, and task 2 goes to worker 1.");
    assert_eq!(example.after(1).loads(), [60, 1]);
}

/// Root 0 of weight 4 is completed; the others wait: 3 of weight 1 for worker 0, 1 and 4 of weights 7 and 5 for worker 1, 2 of
/// weight 9 for worker 2. A ring holds two tasks, so 5 fills that of the target beside 3, 6 and 7 that of worker 1, 8 and 9 that of
/// worker 2; there is no room for 10 until worker 2 has taken 8, which then counts in its hand.
#[test]
fn the_placements_past_full_rings() {
    let expected: [Expected; 7] = [
        (&[1, 12, 9], 0, 5, Some(0)),
        (&[2, 12, 9], 0, 6, Some(1)),
        (&[2, 13, 9], 0, 7, Some(1)),
        (&[2, 14, 9], 0, 8, Some(2)),
        (&[2, 14, 10], 0, 9, Some(2)),
        (&[2, 14, 11], 0, 10, None),
        (&[2, 14, 11], 0, 10, Some(2)),
    ];
    assert_places(&fallback(), &expected);
}

/// Roots 0 and 3, of weights 2 and 7, go to worker 0, which completes 0; 1 and 2, of weight 4, to workers 1 and 2.
#[test]
fn the_placements_with_ties() {
    let expected: [Expected; 4] = [
        (&[7, 4, 4], 1, 4, Some(1)),
        (&[7, 5, 4], 2, 5, Some(2)),
        (&[7, 5, 7], 1, 6, Some(1)),
        (&[7, 7, 7], 0, 7, Some(0)),
    ];
    let example = tie();
    assert_places(&example, &expected);
    let least: Vec<Vec<u32>> = example.placements.iter().map(|each| each.view.least()).collect();
    assert_eq!(least, [vec![1, 2], vec![2], vec![1], vec![0, 1, 2]]);
}

/// Worker 0 runs its root of weight 60, and worker 1 has completed the one that it releases from; the root of weight 5 waits for
/// worker 2.
#[test]
fn exercise_1() {
    let expected: [Expected; 3] = [
        (&[60, 0, 5], 1, 3, Some(1)),
        (&[60, 4, 5], 1, 4, Some(1)),
        (&[60, 8, 5], 2, 5, Some(2)),
    ];
    let example = running();
    assert_places(&example, &expected);
    assert_told("Tasks 3, 4 and 5 go to workers 1, 1 and 2.");
    assert_eq!(example.after(1).waiting(0), []);
    assert_eq!(example.after(1).waiting(1), [(1, &[3, 4][..])]);
    assert_eq!(example.after(1).waiting(2), [(1, &[5][..]), (2, &[2])]);
}

/// Each ring holds two tasks. Worker 2 has the least load, and keeps it: the weights 3 and 1 join worker 3.
#[test]
fn exercise_2() {
    let expected: [Expected; 5] = [
        (&[8, 5, 0, 6], 2, 4, Some(2)),
        (&[8, 5, 1, 6], 2, 5, Some(2)),
        (&[8, 5, 2, 6], 2, 6, Some(3)),
        (&[8, 5, 2, 9], 2, 7, Some(3)),
        (&[8, 5, 2, 10], 2, 8, Some(0)),
    ];
    let example = past_the_last();
    assert_places(&example, &expected);
    assert_told("Tasks 4 and 5 go to worker 2, tasks 6 and 7 to worker 3, and task 8 to worker 0.");
    assert_eq!(example.after(2).loads(), [9, 5, 2, 10]);
    assert_told("After that the loads are 9, 5, 2 and 10.");
}

/// Each ring holds two tasks, and those that worker 1 fills have tasks 2 and 3, and 4 and 5. Worker 0 looks at filler 0 first. Its
/// load is the same before and after each Fetch; at its Complete the 6 of task 0 leaves.
#[test]
fn exercise_3() {
    let expected: [Expected; 7] = [
        (&[6, 0], 1, 2, Some(1)),
        (&[6, 2], 1, 3, Some(1)),
        (&[6, 3], 1, 4, Some(0)),
        (&[7, 3], 1, 5, Some(0)),
        (&[8, 3], 1, 6, None),
        (&[8, 3], 1, 6, None),
        (&[2, 3], 0, 6, Some(0)),
    ];
    let example = room();
    assert_places(&example, &expected);
    let fetched: Vec<&[(u32, u32)]> = example.placements.iter().map(|each| each.fetched.as_slice()).collect();
    assert_eq!(fetched, [&[(1, 1)][..], &[], &[], &[], &[], &[(0, 0)], &[(4, 0)]]);
    let before_the_refusal = &example.placements[4].view;
    assert_eq!(before_the_refusal.waiting(0), [(0, &[0][..]), (1, &[4, 5])]);
    assert_eq!(before_the_refusal.waiting(1), [(1, &[2, 3][..])]);
    assert_told("The fifth and the sixth Release are refused, both with 11 and task 6.");
}

/// Tiles 1 and 2 weigh 5 and 3; their seam, task 3, weighs 4. Both tiles are complete when worker 1 makes the seam's first copy: a
/// tie. Worker 0 fetches from filler 1 first, since it took both its tasks from filler 0.
#[test]
fn the_seam_s_rows() {
    let complete = |worker, [task, pred]: [u32; 2], loads, left| Row {
        step: Step::Complete,
        worker,
        copy: Copied { task, pred },
        loads,
        fixed: None,
        owner: None,
        left,
    };
    let release = |worker, [task, pred]: [u32; 2], loads, fixed, owner, left| Row {
        step: Step::Release,
        worker,
        copy: Copied { task, pred },
        loads,
        fixed,
        owner: Some(owner),
        left,
    };
    let expected = [
        complete(0, [0, NIL], [1, 0], 0),
        release(0, [1, 0], [0, 0], None, 0, 1),
        release(0, [2, 0], [5, 0], None, 1, 1),
        complete(1, [2, 0], [5, 3], 0),
        complete(0, [1, 0], [5, 0], 0),
        release(1, [3, 2], [0, 0], None, 0, 2),
        release(0, [3, 1], [4, 0], Some(0), 0, 2),
        complete(0, [3, 2], [4, 0], 1),
        complete(0, [3, 1], [4, 0], 0),
    ];
    assert_eq!(seam(), expected);
    assert_told("The load of worker 0 is 4 until both copies are completed, and not 8: the weight counts once.");
}

/// The page says so, wherever its lines break.
fn assert_told(sentence: &str) {
    let page = pages::rule().stored().unwrap_or_else(|wrong| panic!("{wrong}"));
    let words: Vec<&str> = page.split_whitespace().collect();
    assert!(words.join(" ").contains(sentence), "{sentence}");
}

/// What waits in which ring, in the example of full rings: before the refused Release, and after worker 2 has fetched task 8 from
/// the ring that worker 0 fills.
#[test]
fn what_waits_past_full_rings() {
    let example = fallback();
    let [.., refused, last] = example.placements.as_slice() else {
        panic!("a refused Release and one after it");
    };
    assert_eq!(refused.view.waiting(0), [(0, &[3, 5][..])]);
    assert_eq!(refused.view.waiting(1), [(0, &[6, 7][..]), (1, &[1, 4])]);
    assert_eq!(refused.view.waiting(2), [(0, &[8, 9][..]), (2, &[2])]);
    assert_eq!(last.view.waiting(2), [(0, &[9][..]), (2, &[2])]);
}

/// How often the drawn runs try each part of the rule.
#[derive(Default)]
struct Tried {
    placed: usize,
    ties: usize,
    fallbacks: usize,
    refused: usize,
}

impl Tried {
    /// The answer of a Release is what could be foreseen; whatever leaves a degree or meets another number says nothing here.
    fn release(&mut self, view: &View, answer: Result<Outcome, Refusal>) {
        match answer {
            Ok(Outcome::Placed { owner, .. }) => {
                assert_eq!(view.foreseen(), Some(owner), "{view:?}");
                self.placed += 1;
                self.ties += usize::from(view.least().len() > 1);
                self.fallbacks += usize::from(view.target() != owner);
            }
            Err(Refusal { number: 11, .. }) => {
                assert_eq!(view.foreseen(), None, "{view:?}");
                self.refused += 1;
            }
            _ => {}
        }
    }
}

/// Where the weights go: to the owner at a Release that places, from the worker at a Complete, else nowhere.
fn assert_loads(found: &Memory, views: [&View; 2], worker: u32, step: Step, answer: Result<Outcome, Refusal>) {
    let [mut expected, after] = views.map(View::loads);
    let weight = |task: u32| i64::from(found.weights[task as usize]);
    match (step, answer) {
        (Step::Release, Ok(Outcome::Placed { task, owner })) => expected[owner as usize] += weight(task),
        (Step::Complete, Ok(_)) => expected[worker as usize] -= weight(found.rows[worker as usize][HELD]),
        _ => {}
    }
    assert_eq!(after, expected, "{step:?} by {worker}: {answer:?}");
}

/// A worker's load is the weight of what waits in its rings and of what it has in its hand.
fn assert_waiting_and_held(memory: &Memory, view: &View) {
    let weight = |task: &u32| i64::from(memory.weights[*task as usize]);
    for (owner, load) in (0..).zip(view.loads()) {
        let waiting = view.waiting(owner).into_iter().flat_map(|(_, tasks)| tasks);
        let hand = view.hand(owner);
        assert_eq!(load, waiting.chain(&hand).map(weight).sum(), "of worker {owner}");
    }
}

/// A root for each worker and many successors, few slots, weights that differ much, calls in any order: rings are full while
/// their owner has the least load.
fn crowded(seed: u64) -> Case {
    let mut draw = Draw::new(seed);
    let (p, k, n) = (draw.between(2, 4), draw.between(2, 3), draw.between(20, 60));
    let weights = (0..n).map(|_| draw.pick(&[0, 0, 1, 50])).collect();
    let root = |task: usize| if task < p { vec![] } else { vec![(task % p) as u32] };
    let Table { starts, words } = Table::of(&(0..n).map(root).collect::<Vec<_>>());
    let memory = Memory::sized(weights, starts, words, p, k, 0);
    let steps = (0..20 * n).map(|_| {
        let worker = draw.below(p) as u32;
        let step = draw.pick(&Step::ALL);
        Call::Step { p, k, worker, step }
    });
    let calls = std::iter::once(Call::Begin { p, k }).chain(steps).collect();
    Case { memory, p, k, calls }
}

/// Makes the calls of the case, and holds each step after begin to the page.
fn watch(engine: &Engine, case: &Case, tried: &mut Tried) {
    let mut memory = case.memory.clone();
    let mut begun = false;
    for call in &case.calls {
        let before = memory.clone();
        let reply = call.make(engine, &mut memory);
        begun |= reply == Reply::Begun(Ok(()));
        let (&Call::Step { p, k, worker, step }, Reply::Stepped(answer)) = (call, reply) else {
            continue;
        };
        if !begun || (p, k) != (case.p, case.k) || worker as usize >= p {
            continue;
        }
        let (view, next) = (View::of(&before, p, k, worker), View::of(&memory, p, k, worker));
        assert_loads(&before, [&view, &next], worker, step, answer);
        assert_waiting_and_held(&memory, &next);
        if step == Step::Release {
            tried.release(&view, answer);
        }
    }
}

/// In drawn runs of every engine the owner of each placed task is the one that the page's rule names.
#[test]
fn every_placement_is_foreseen() {
    for engine in engines::all() {
        let mut tried = Tried::default();
        let honest = (20_000..20_200).map(next_case).filter(Case::is_honest);
        for case in honest.chain((0..200).map(crowded)) {
            watch(&engine, &case, &mut tried);
        }
        let counts = [tried.placed, tried.ties, tried.fallbacks, tried.refused];
        assert!(counts.iter().all(|&count| count >= 300), "{}: {counts:?}", engine.name);
    }
}
