//! The runs that the engines are measured on: a random graph in layers, from a fixed seed, and the accepted steps of one run;
//! the run that the preview is measured on, at its limits; the graphs that the writers are measured on, the finished records
//! that load windows are, and graphs with cycles.

use crate::cyclic::Shape;
use crate::draw::Draw;
use crate::engine::{Engine, Limits};
use crate::frames::LENT;
use crate::loads;
use crate::memory::{Lists, Memory, Step};
use crate::model::{word, Graph, Table};
use crate::plain;
use crate::plain_engine::{self, Lent};
use crate::plain_weak;
use crate::runs::{Call, Case};
use crate::weak;
use std::env;

pub const SLOTS: usize = 64;
pub const EDGES_PER_TASK: usize = 8;

/// The tasks and workers of each run.
pub const RUNS: [(usize, usize); 6] = [(1_024, 1), (1_024, 2), (1_024, 4), (1_024, 16), (64, 4), (256, 4)];

const SEED: u64 = 700;
/// Tasks in a layer. The roots are those of the first one, few enough for one worker's ring.
const WIDTH: usize = 16;
const MAX_WEIGHT: usize = 65_535;
/// What the lists hold before begin, which has to write over it.
const FILL: u32 = 0xfeed_beef;

/// The graph with that many tasks, above 16, and eight edges for each.
fn graph(tasks: usize) -> Graph {
    graph_of(tasks, EDGES_PER_TASK * tasks)
}

/// The graph with that many tasks, above 16, and edges.
fn graph_of(tasks: usize, edges: usize) -> Graph {
    let mut draw = Draw::new(SEED);
    let preds = Table::of(&layers(&mut draw, tasks, edges));
    let weights = (0..tasks).map(|_| word(draw.between(0, MAX_WEIGHT))).collect();
    Graph { weights, preds }
}

/// The lent memory of the graph with that many tasks, above 16, before begin.
pub fn memory(tasks: usize, workers: usize) -> Memory {
    let Graph { weights, preds } = graph(tasks);
    Memory::sized(weights, preds.starts, preds.words, workers, SLOTS, FILL)
}

/// The lent memory of the same job begun weak, before begin.
pub fn weak_memory(tasks: usize, workers: usize) -> weak::Memory {
    let Graph { weights, preds } = graph(tasks);
    weak::Memory::sized(weights, preds.starts, preds.words, workers, SLOTS, FILL)
}

/// The lent memory of a graph of this shape with that many tasks and about eight edges for each, whose begin is refused with 5.
pub fn looped_memory(shape: Shape, tasks: usize, workers: usize) -> Memory {
    let Graph { weights, preds } = shape.graph(tasks, EDGES_PER_TASK * tasks, SEED);
    Memory::sized(weights, preds.starts, preds.words, workers, SLOTS, FILL)
}

/// The lent memory of a graph with N, E, P and K at the preview's limits, before begin.
pub fn preview_memory() -> Memory {
    let limits = Limits::PREVIEW;
    let Graph { weights, preds } = graph_of(limits.tasks(), limits.edges());
    Memory::sized(weights, preds.starts, preds.words, limits.workers, limits.slots, FILL)
}

/// The same graph with the dummies of a text: its first task has no predecessors, and the last one may have some.
pub fn saved(tasks: usize) -> Graph {
    let mut graph = graph(tasks);
    (graph.weights[0], graph.weights[tasks - 1]) = (0, 0);
    graph
}

/// The graph of a measured text. Its predecessors are drawn and may stand twice in a task; here each stands once.
pub fn saved_from(text: &[u8]) -> Graph {
    let [mut weights, mut starts, mut preds] = LENT.map(|length| vec![0; length]);
    let (tasks, _) = plain::read(text, &mut weights, &mut starts, &mut preds).expect("a measured text is valid");
    weights.truncate(tasks as usize);
    let once = |part: &[u32]| {
        let mut list = Vec::new();
        for &pred in &preds[part[0] as usize..part[1] as usize] {
            if !list.contains(&pred) {
                list.push(pred);
            }
        }
        list
    };
    let lists: Vec<Vec<u32>> = starts[..=weights.len()].windows(2).map(once).collect();
    Graph {
        weights,
        preds: Table::of(&lists),
    }
}

/// Each task's predecessors: one from the layer before, the others from any layer before.
fn layers(draw: &mut Draw, tasks: usize, all: usize) -> Vec<Vec<u32>> {
    let first_of_layer = |task: usize| task - task % WIDTH;
    let mut lists: Vec<Vec<u32>> = vec![Vec::new(); tasks];
    for (task, list) in lists.iter_mut().enumerate().skip(WIDTH) {
        let first = first_of_layer(task);
        list.push(word(draw.between(first - WIDTH, first - 1)));
    }
    let mut edges = tasks - WIDTH;
    while edges < all {
        let task = draw.between(WIDTH, tasks - 1);
        let pred = word(draw.below(first_of_layer(task)));
        if !lists[task].contains(&pred) {
            lists[task].push(pred);
            edges += 1;
        }
    }
    lists
}

/// The accepted steps of one run: turns go round the workers, and each takes the first accepted of Release, Fetch, Start,
/// Complete, or nothing.
pub fn accepted_steps(memory: Memory, workers: usize, slots: usize) -> Vec<(u32, Step)> {
    accepted_steps_by(plain_engine::PLAIN, memory, workers, slots)
}

/// The same of a weak job.
pub fn weak_accepted_steps(memory: weak::Memory, workers: usize, slots: usize) -> Vec<(u32, Step)> {
    accepted_steps_by(plain_weak::PLAIN, memory, workers, slots)
}

fn accepted_steps_by<M: Lists>(engine: Engine<M>, mut memory: M, workers: usize, slots: usize) -> Vec<(u32, Step)> {
    (engine.begin)(&mut memory, workers, slots).expect("the graph is sound and has few roots");
    let [_, due] = memory.counts();
    let mut steps = Vec::with_capacity(due);
    let mut idle = 0;
    for worker in (0..word(workers)).cycle() {
        if steps.len() == due {
            break;
        }
        let mut order = [Step::Release, Step::Fetch, Step::Start, Step::Complete].into_iter();
        let taken = order.find(|&step| (engine.step)(&mut memory, workers, slots, worker, step).is_ok());
        idle = if taken.is_some() { 0 } else { idle + 1 };
        assert!(idle < workers, "an unfinished run has a step that would be accepted");
        steps.extend(taken.map(|step| (worker, step)));
    }
    steps
}

/// Makes the run with each engine, call by call: what a bench program counts.
///
/// # Panics
///
/// Unless all of them accept every call, answer the same and leave the same words.
pub fn make_alike<M: Lists>(engines: &[Engine<M>], memory: M, workers: usize, steps: Vec<(u32, Step)>) {
    let mut memories = vec![memory; engines.len()];
    let same = |memories: &[M]| memories.windows(2).for_each(|pair| assert_eq!(pair[0], pair[1]));
    for (engine, memory) in engines.iter().zip(&mut memories) {
        assert_eq!((engine.begin)(memory, workers, SLOTS), Ok(()));
    }
    same(&memories);
    for (worker, step) in steps {
        let made = engines.iter().zip(&mut memories);
        let mut answers = made.map(|(engine, memory)| (engine.step)(memory, workers, SLOTS, worker, step));
        let first = answers.next().expect("there is an engine");
        assert!(first.is_ok());
        answers.for_each(|answer| assert_eq!(answer, first));
    }
    same(&memories);
}

/// The numbers of tasks and workers that a bench program is called with.
pub fn sizes() -> [usize; 2] {
    let mut words = env::args().skip(1);
    ["a number of tasks", "a number of workers"].map(|of| {
        let word = words.next();
        word.and_then(|word| word.parse().ok()).expect(of)
    })
}

/// The sizes of the windows that are measured.
pub const WINDOWS: [usize; 3] = [1, 32, 512];

/// What load windows are lent of the run with that many tasks and workers, finished.
pub fn record(tasks: usize, workers: usize) -> loads::Lent {
    let mut memory = memory(tasks, workers);
    let steps = accepted_steps(memory.clone(), workers, SLOTS);
    let mut lent = Lent::of(&mut memory);
    plain_engine::begin(&mut lent, workers, SLOTS).expect("the graph is sound and has few roots");
    for (worker, step) in steps {
        plain_engine::step(&mut lent, workers, SLOTS, worker, step).expect("the step was accepted");
    }
    loads::Lent::of(&memory, workers)
}

/// The run as a list of calls: begin and the accepted steps.
pub fn case(tasks: usize, workers: usize) -> Case {
    case_of(memory(tasks, workers), workers, SLOTS)
}

/// The preview's run as a list of calls.
pub fn preview_case() -> Case {
    case_of(preview_memory(), Limits::PREVIEW.workers, Limits::PREVIEW.slots)
}

/// A weak run as a list of calls.
pub fn weak_case(tasks: usize, workers: usize) -> Case<weak::Memory> {
    let memory = weak_memory(tasks, workers);
    let steps = weak_accepted_steps(memory.clone(), workers, SLOTS);
    case_by(memory, workers, SLOTS, steps)
}

fn case_of(memory: Memory, p: usize, k: usize) -> Case {
    let steps = accepted_steps(memory.clone(), p, k);
    case_by(memory, p, k, steps)
}

fn case_by<M: Lists>(memory: M, p: usize, k: usize, steps: Vec<(u32, Step)>) -> Case<M> {
    let begin = Call::Begin { p, k };
    let step = |(worker, step)| Call::Step { p, k, worker, step };
    let calls = std::iter::once(begin).chain(steps.into_iter().map(step)).collect();
    Case { memory, p, k, calls }
}
