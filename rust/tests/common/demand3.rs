//! What the checks of whole runs share for both families: pairs of finished runs, engines with one fault, and a run whose counters
//! lie far apart.

use engine_model::engine::{Engine, Stepper};
use engine_model::memory::{Lists, Step};
use engine_model::model::Table;
use engine_model::runs::{Call, Case};

/// The lists of a graph whose tasks all have this weight.
pub fn memory<M: Lists>(lists: &[&[u32]], weight: u32, p: usize, k: usize) -> M {
    let lists: Vec<Vec<u32>> = lists.iter().map(|list| list.to_vec()).collect();
    let table = Table::of(&lists);
    M::sized(vec![weight; lists.len()], table.starts, table.words, p, k, 0)
}

/// Any two finished runs of each graph are joined, many of them with exchanges; a graph is drawn by its seed and most tasks.
pub fn assert_joined<F>(
    seeds: u64,
    most: [usize; 5],
    finished: impl Fn(u64, usize) -> Vec<F>,
    exchanges: impl Fn(&F, &F) -> usize,
) {
    let (mut joined, mut apart) = (0, 0);
    for seed in 0..seeds {
        let finished = finished(seed, most[seed as usize % most.len()]);
        for (place, one) in finished.iter().enumerate() {
            for other in &finished[..place] {
                joined += 1;
                apart += usize::from(exchanges(one, other) > 0);
            }
        }
    }
    assert!(joined >= 1_000, "{joined} pairs");
    assert!(apart >= 500, "{apart} pairs of different records");
}

const SUCCESSORS: usize = 1_021;
const HEAVY: u32 = 65_535;

/// The counters after the run whose counters lie far apart.
pub const FAR_APART: [i32; 4] = [
    0,
    0,
    SUCCESSORS as i32 * HEAVY as i32,
    -(SUCCESSORS as i32 * HEAVY as i32),
];

/// "A counter always lies within ±67,107,840 in an honest run", and comes near both ends: worker 0 keeps a task waiting, so that
/// all 1,021 successors of task 0, which it releases one after the other, go to worker 1. Their weights join counter (1, 0) and leave
/// counter (1, 1), while the sum is what worker 1 has waiting and in its hand.
pub fn far_apart<M: Lists>() -> Case<M> {
    let (p, k) = (2, 4);
    let lists = [vec![&[][..]; 3], vec![&[0][..]; SUCCESSORS]].concat();
    let memory = memory(&lists, HEAVY, p, k);
    let call = |worker, step| Call::Step { p, k, worker, step };
    let execute = |worker| [Step::Fetch, Step::Start, Step::Complete].map(|step| call(worker, step));
    let handed_on = [&[call(0, Step::Release)][..], &execute(1)].concat();
    let calls = [
        vec![Call::Begin { p, k }],
        execute(1).to_vec(),
        execute(0).to_vec(),
        handed_on.repeat(SUCCESSORS),
        execute(0).to_vec(),
    ]
    .concat();
    Case { memory, p, k, calls }
}

/// The memory after the calls of the case, which are all accepted.
pub fn all_accepted<M: Lists>(engine: &Engine<M>, case: &Case<M>) -> M {
    let mut memory = case.memory.clone();
    let accepted = |call: &Call| call.make(engine, &mut memory).is_accepted();
    assert!(case.calls.iter().all(accepted));
    memory
}

/// An engine with the model's begin.
pub fn with_step<M: Lists>(step: Stepper<M>) -> Engine<M> {
    Engine {
        name: "faulty",
        step,
        ..M::MODEL
    }
}

/// The check finds a fault, and says so in these words.
pub fn assert_says(found: Option<String>, words: &str) {
    let wrong = found.expect("the fault is found");
    assert!(wrong.contains(words), "{wrong}");
}
