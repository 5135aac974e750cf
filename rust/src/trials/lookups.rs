//! Lookups on sound and on damaged tables, on both sides, for tasks inside and beyond.

use super::note;
use super::random::{acyclic, weighed, Lists};
use crate::draw::Draw;
use crate::model::{link, Graph, Lent, Limits, Lookup, Side, Table, MAX_EDGES, MAX_TASKS};
use crate::text::{LookupTrial, Trial};

const SIDES: [Side; 2] = [Side::Predecessors, Side::Successors];

/// Both tables of an acceptable graph.
fn both_tables(graph: Graph) -> Lookup {
    let (n, e) = (graph.weights.len(), graph.preds.words.len());
    let mut lent = Lent {
        starts: vec![0; n + 1],
        succs: vec![0; e],
        degrees: vec![0; n],
    };
    assert_eq!(link(Limits::ENGINE, &graph, &mut lent), Ok(()));
    Lookup {
        weights: graph.weights,
        preds: graph.preds,
        succs: Table {
            starts: lent.starts,
            words: lent.succs,
        },
    }
}

/// Both sides of each of the tasks.
fn asking(lookup: Lookup, tasks: impl IntoIterator<Item = u32>) -> Trial {
    let questions = tasks
        .into_iter()
        .flat_map(|task| SIDES.map(|side| (side, task)))
        .collect();
    Trial::Lookup(LookupTrial { lookup, questions })
}

/// Every task, and a few beyond.
fn asking_all(lookup: Lookup) -> Trial {
    let n = lookup.weights.len() as u32;
    asking(lookup, (0..n + 2).chain([65_535, u32::MAX]))
}

fn base(draw: &mut Draw) -> Lookup {
    let n = draw.between(1, 8);
    let e = draw.below(3 * n);
    let lists = acyclic(draw, n, e);
    both_tables(weighed(draw, &lists))
}

pub fn small() -> Vec<Trial> {
    let mut draw = Draw::new(6);
    let mut trials = vec![note("lookups: no task"), asking_all(both_tables(Graph::of_lists(&[])))];
    trials.push(note("lookups on random graphs"));
    trials.extend((0..40).map(|_| asking_all(base(&mut draw))));
    trials
}

/// A defect of what a lookup is lent.
#[derive(Clone, Copy, Debug)]
enum Defect {
    Start,
    StartHuge,
    WordN,
    WordHuge,
    FirstStart,
    LastStart,
    StartsLength,
    WordsLength,
    WeightMore,
    HeavyWeight,
}

const DEFECTS: [Defect; 10] = [
    Defect::Start,
    Defect::StartHuge,
    Defect::WordN,
    Defect::WordHuge,
    Defect::FirstStart,
    Defect::LastStart,
    Defect::StartsLength,
    Defect::WordsLength,
    Defect::WeightMore,
    Defect::HeavyWeight,
];

impl Defect {
    fn apply(self, draw: &mut Draw, lookup: &mut Lookup) {
        let n = lookup.weights.len();
        let table = match draw.pick(&SIDES) {
            Side::Predecessors => &mut lookup.preds,
            Side::Successors => &mut lookup.succs,
        };
        let (e, last) = (table.words.len(), table.starts.len() - 1);
        match self {
            Defect::Start => table.starts[draw.below(last + 1)] = draw.below(e + 2) as u32,
            Defect::StartHuge => table.starts[draw.below(last + 1)] = draw.pick(&[1 << 31, u32::MAX]),
            Defect::WordN => set_word(draw, table, n as u32),
            Defect::WordHuge => set_word(draw, table, u32::MAX),
            Defect::FirstStart => table.starts[0] = table.starts[0].wrapping_add(1),
            Defect::LastStart => table.starts[last] = table.starts[last].saturating_sub(1),
            Defect::StartsLength => table.starts.resize(draw.pick(&[1, n.max(1), n + 2]), 0),
            Defect::WordsLength => table.words.resize(draw.pick(&[e.saturating_sub(1), e + 1]), 0),
            Defect::WeightMore => lookup.weights.push(0),
            Defect::HeavyWeight => lookup.weights[draw.below(n)] = u32::MAX,
        }
    }
}

fn set_word(draw: &mut Draw, table: &mut Table, word: u32) {
    if !table.words.is_empty() {
        let at = draw.below(table.words.len());
        table.words[at] = word;
    }
}

pub fn damaged() -> Vec<Trial> {
    let mut draw = Draw::new(7);
    let mut trials = Vec::new();
    for defect in DEFECTS {
        trials.push(note(&format!("lookups, one defect: {defect:?}")));
        for _ in 0..16 {
            let mut lookup = base(&mut draw);
            defect.apply(&mut draw, &mut lookup);
            trials.push(asking_all(lookup));
        }
    }
    trials.push(note("lookups, several defects drawn together"));
    trials.extend((0..120).map(|_| several(&mut draw)));
    trials
}

/// Questions about tables with a few defects drawn together.
pub fn several(draw: &mut Draw) -> Trial {
    let mut lookup = base(draw);
    for _ in 0..draw.between(2, 4) {
        draw.pick(&DEFECTS).apply(draw, &mut lookup);
    }
    asking_all(lookup)
}

/// Empty ranges for n tasks, and e words on each side.
fn loose(n: usize, e: usize) -> Lookup {
    let table = Table {
        starts: vec![0; n + 1],
        words: vec![0; e],
    };
    Lookup {
        weights: vec![0; n],
        preds: table.clone(),
        succs: table,
    }
}

/// A star: every other task comes after task 0, and before the last one.
fn star() -> Lists {
    let last = MAX_TASKS as u32 - 1;
    let preds_of = |t: u32| {
        if t == last {
            (0..last).collect()
        } else {
            (0..t.min(1)).collect()
        }
    };
    (0..=last).map(preds_of).collect()
}

pub fn largest() -> Vec<Trial> {
    let mut draw = Draw::new(8);
    let lists = acyclic(&mut draw, MAX_TASKS, 2_500);
    let mut all_words = loose(2, MAX_EDGES);
    all_words.succs.starts[1] = MAX_EDGES as u32;
    all_words.succs.starts[2] = MAX_EDGES as u32;
    let mut many_words = loose(0, MAX_EDGES + 1);
    many_words.succs.words.clear();
    let sample = [0, 1, 255, 256, 511, 512, 1_022, 1_023, 1_024, 65_535];
    vec![
        note("lookups in a star of 1,024 tasks"),
        asking(both_tables(Graph::of_lists(&star())), sample),
        note("lookups in a random graph of 1,024 tasks"),
        asking(
            both_tables(Graph::of_lists(&lists)),
            sample.into_iter().chain((0..1_024).step_by(37)),
        ),
        note("lookups at the limits: 8,192 words for one task, 8,193 words, 1,025 tasks"),
        asking(all_words, 0..3),
        asking(many_words, 0..2),
        asking(loose(MAX_TASKS + 1, 0), [0, 1_024, 1_025]),
    ]
}
