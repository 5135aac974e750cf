//! Graphs damaged in every way that document 01 names: one defect at a time, a few drawn together, and every mixture.

use super::random::{acyclic, add_cycle, weighed, Lists};
use super::{note, noted};
use crate::draw::Draw;
use crate::model::{Graph, Limits, Table};
use crate::text::{GraphTrial, Trial};

/// A defect in the predecessors of some task, before the table is laid out.
#[derive(Clone, Copy, Debug)]
enum Listed {
    PredecessorN,
    PredecessorHuge,
    TwiceBeside,
    TwiceApart,
    Thrice,
    LoopOnOne,
    Cycle,
}

/// A defect in the lists that are lent.
#[derive(Clone, Copy, Debug)]
enum Lent {
    RangeFalls,
    StartBeyond,
    StartHuge,
    FirstStart,
    LastStartLow,
    LastStartHigh,
    HeavyWeight,
    StartsLength,
    SuccStartsLength,
    SuccsLength,
    DegreesLength,
    WeightMore,
    PredecessorLess,
    TasksLimit,
    EdgesLimit,
}

const LISTED: [Listed; 7] = [
    Listed::PredecessorN,
    Listed::PredecessorHuge,
    Listed::TwiceBeside,
    Listed::TwiceApart,
    Listed::Thrice,
    Listed::LoopOnOne,
    Listed::Cycle,
];

const LENT: [Lent; 15] = [
    Lent::RangeFalls,
    Lent::StartBeyond,
    Lent::StartHuge,
    Lent::FirstStart,
    Lent::LastStartLow,
    Lent::LastStartHigh,
    Lent::HeavyWeight,
    Lent::StartsLength,
    Lent::SuccStartsLength,
    Lent::SuccsLength,
    Lent::DegreesLength,
    Lent::WeightMore,
    Lent::PredecessorLess,
    Lent::TasksLimit,
    Lent::EdgesLimit,
];

impl Listed {
    fn apply(self, draw: &mut Draw, lists: &mut Lists) {
        let n = lists.len();
        let t = draw.below(n);
        let list = &mut lists[t];
        let at = draw.below(list.len() + 1);
        match self {
            Listed::PredecessorN => list.insert(at, n as u32),
            Listed::PredecessorHuge => list.insert(at, draw.pick(&[n as u32 + 1, 65_535, 1 << 31, u32::MAX])),
            Listed::TwiceBeside => repeat(draw, list, n, 1),
            Listed::TwiceApart => {
                let u = first_or(list, draw.below(n));
                list.push(u);
            }
            Listed::Thrice => repeat(draw, list, n, 2),
            Listed::LoopOnOne => list.insert(at, t as u32),
            Listed::Cycle => {
                let length = draw.between(2, n.max(2));
                add_cycle(draw, lists, length);
            }
        }
    }
}

/// The first predecessor; where there is none, u becomes the first.
fn first_or(list: &mut Vec<u32>, u: usize) -> u32 {
    if list.is_empty() {
        list.push(u as u32);
    }
    list[0]
}

/// A predecessor follows itself `more` times.
fn repeat(draw: &mut Draw, list: &mut Vec<u32>, n: usize, more: usize) {
    first_or(list, draw.below(n));
    let at = draw.below(list.len());
    for _ in 0..more {
        list.insert(at, list[at]);
    }
}

impl Lent {
    fn apply(self, draw: &mut Draw, trial: &mut GraphTrial) {
        let Graph { weights, preds } = &mut trial.graph;
        let (n, e) = (weights.len(), preds.words.len());
        let t = draw.below(n);
        let last = preds.starts.len() - 1;
        match self {
            Lent::RangeFalls => preds.starts[draw.below(last + 1)] = draw.below(e + 1) as u32,
            Lent::StartBeyond => preds.starts[draw.below(last + 1)] = (e + draw.between(1, 3)) as u32,
            Lent::StartHuge => preds.starts[draw.below(last + 1)] = draw.pick(&[65_536, 1 << 31, u32::MAX]),
            Lent::FirstStart => preds.starts[0] = preds.starts[0].wrapping_add(1),
            Lent::LastStartLow => preds.starts[last] = preds.starts[last].saturating_sub(1),
            Lent::LastStartHigh => preds.starts[last] = preds.starts[last].wrapping_add(1),
            Lent::HeavyWeight => weights[t] = draw.pick(&[65_536, 1 << 31, u32::MAX]),
            Lent::StartsLength => set_length(&mut preds.starts, draw.pick(&[0, 1, n, n + 2, n + 9])),
            Lent::SuccStartsLength => trial.lent[0] = draw.pick(&[0, n, n + 2, e + n + 2]),
            Lent::SuccsLength => trial.lent[1] = draw.pick(&[e.saturating_sub(1), e + 1, e + 9]),
            Lent::DegreesLength => trial.lent[2] = draw.pick(&[0, n - 1, n + 1, n + 9]),
            Lent::WeightMore => weights.push(1),
            Lent::PredecessorLess => preds.words.truncate(e.saturating_sub(1)),
            Lent::TasksLimit => trial.limits.tasks = draw.between(n - 1, n + 1) as u32,
            Lent::EdgesLimit => trial.limits.edges = draw.between(e.saturating_sub(1), e + 1) as u32,
        }
    }
}

/// At least one word stays, so that a later defect finds its place.
fn set_length(list: &mut Vec<u32>, length: usize) {
    let end = list[list.len() - 1];
    list.resize(length.max(1), end);
}

fn base(draw: &mut Draw) -> Lists {
    let n = draw.between(2, 9);
    let e = draw.below(3 * n);
    acyclic(draw, n, e)
}

/// Each defect alone, on several graphs.
pub fn one_each() -> Vec<Trial> {
    let mut draw = Draw::new(4);
    let mut trials = Vec::new();
    for defect in LISTED {
        trials.push(note(&format!("one defect: {defect:?}")));
        for _ in 0..24 {
            let mut lists = base(&mut draw);
            defect.apply(&mut draw, &mut lists);
            trials.push(Trial::Graph(GraphTrial::of(weighed(&mut draw, &lists))));
        }
    }
    for defect in LENT {
        trials.push(note(&format!("one defect: {defect:?}")));
        for _ in 0..24 {
            let lists = base(&mut draw);
            let mut trial = GraphTrial::of(weighed(&mut draw, &lists));
            defect.apply(&mut draw, &mut trial);
            trials.push(Trial::Graph(trial));
        }
    }
    trials
}

/// A graph with a few defects drawn together, so that the order of the numbers and the smallest task show.
pub fn several(draw: &mut Draw) -> GraphTrial {
    let mut lists = base(draw);
    for _ in 0..draw.below(4) {
        draw.pick(&LISTED).apply(draw, &mut lists);
    }
    let mut trial = GraphTrial::of(weighed(draw, &lists));
    for _ in 0..draw.below(3) {
        draw.pick(&LENT).apply(draw, &mut trial);
    }
    trial
}

pub fn several_at_once() -> Vec<Trial> {
    let mut draw = Draw::new(5);
    noted("several defects drawn together", (0..500).map(|_| several(&mut draw)))
}

/// One of the 256 mixtures of eight defects, each in a task of its own; a later number names a smaller task.
fn mixture(bits: u32) -> GraphTrial {
    let has = |defect: u32| bits >> defect & 1 == 1;
    let mut lists: Lists = vec![vec![], vec![0], vec![0, 1], vec![2], vec![3, 0], vec![4], vec![5]];
    if has(0) {
        lists[0].push(2);
    }
    if has(1) {
        lists[3].extend([1, 2]);
    }
    if has(2) {
        lists[5].push(7);
    }
    let mut preds = Table::of(&lists);
    if has(3) {
        preds.words.push(0);
    }
    let mut weights = vec![65_535; 7];
    if has(4) {
        weights[6] += 1;
    }
    let mut trial = GraphTrial::of(Graph { weights, preds });
    if has(5) {
        trial.graph.preds.starts.push(0);
    }
    if has(6) {
        trial.lent[2] = 6;
    }
    if has(7) {
        trial.limits = Limits {
            tasks: 6,
            ..Limits::ENGINE
        };
    }
    trial
}

pub fn every_mixture() -> Vec<Trial> {
    noted(
        "every mixture: cycle, twice, predecessor N, last start, weight, starts' length, degrees' length, limit",
        (0..256).map(mixture),
    )
}
