//! Graphs at the limits on N, E and weights, and under limits of the caller's own.

use super::noted;
use super::random::{add_edge, Lists};
use crate::draw::Draw;
use crate::model::{Graph, Limits, Table, MAX_EDGES, MAX_TASKS};
use crate::text::{GraphTrial, Trial};

/// A chain 0 → 1 → 2 → …
fn chain(n: usize) -> Lists {
    (0..n as u32).map(|t| (t.max(1) - 1..t).collect()).collect()
}

fn plain(lists: &[Vec<u32>]) -> GraphTrial {
    GraphTrial::of(Graph::of_lists(lists))
}

/// No task has a predecessor, and the words after the last start are all 0.
fn loose_words(n: usize, e: usize) -> GraphTrial {
    let words = vec![0; e];
    let starts = vec![0; n + 1];
    GraphTrial::of(Graph {
        weights: vec![0; n],
        preds: Table { starts, words },
    })
}

fn weighing(weights: &[u32]) -> GraphTrial {
    let mut trial = plain(&chain(weights.len()));
    trial.graph.weights = weights.to_vec();
    trial
}

/// The chain of five tasks and four edges under limits of the caller's own.
fn limited(tasks: u32, edges: u32) -> GraphTrial {
    GraphTrial {
        limits: Limits { tasks, edges },
        ..plain(&chain(5))
    }
}

pub fn sizes() -> Vec<Trial> {
    let all = u32::MAX;
    [
        noted(
            "no task; one task; a loop on it",
            [plain(&[]), plain(&chain(1)), plain(&[vec![0]])],
        ),
        noted(
            "1,024 tasks, 1,025 tasks",
            [loose_words(MAX_TASKS, 0), loose_words(MAX_TASKS + 1, 0)],
        ),
        noted(
            "8,192 words after the last start, 8,193",
            [loose_words(2, MAX_EDGES), loose_words(2, MAX_EDGES + 1)],
        ),
        noted(
            "no task, 8,192 words, 8,193",
            [loose_words(0, MAX_EDGES), loose_words(0, MAX_EDGES + 1)],
        ),
        noted(
            "weights at the limit and over it, at each end and inside",
            [
                weighing(&[65_535, 65_535, 65_535]),
                weighing(&[65_536, 0, 0]),
                weighing(&[0, 65_536, 0]),
                weighing(&[0, 0, 65_536]),
                weighing(&[0, all, 0]),
                weighing(&[65_536]),
            ],
        ),
        noted(
            "N 5 and E 4 under other limits",
            [
                (5, 4),
                (4, 4),
                (5, 3),
                (0, 0),
                (0, 4),
                (5, 0),
                (6, 5),
                (1_024, 4),
                (5, 8_192),
                (all, all),
                (1_025, 8_193),
            ]
            .map(|(tasks, edges)| limited(tasks, edges)),
        ),
        noted(
            "limits above the engine's count as the engine's",
            [loose_words(MAX_TASKS + 1, 0), loose_words(1, MAX_EDGES + 1)].map(|trial| GraphTrial {
                limits: Limits { tasks: all, edges: all },
                ..trial
            }),
        ),
    ]
    .concat()
}

/// 1,024 tasks and exactly 8,192 edges, each from a lower task to a higher one.
fn full(draw: &mut Draw) -> Lists {
    let mut lists = vec![Vec::new(); MAX_TASKS];
    let mut edges = 0;
    while edges < MAX_EDGES {
        let t = draw.between(1, MAX_TASKS - 1);
        let u = draw.below(t) as u32;
        edges += usize::from(!lists[t].contains(&u));
        add_edge(&mut lists, u, t as u32);
    }
    lists
}

/// The same graph with its tasks numbered the other way round.
fn turned(lists: &Lists) -> Lists {
    let last = lists.len() as u32 - 1;
    let turn = |list: &Vec<u32>| list.iter().map(|u| last - u).collect();
    lists.iter().rev().map(turn).collect()
}

/// Many predecessors for a few tasks: each of the last 8 comes after the first 1,016 and up to three of the 8.
fn wide() -> Lists {
    (0..MAX_TASKS as u32)
        .map(|t| match t {
            0..=1_015 => Vec::new(),
            _ => (0..1_016).chain(1_016..t.min(1_019)).collect(),
        })
        .collect()
}

pub fn largest() -> Vec<Trial> {
    let mut draw = Draw::new(3);
    let lists = full(&mut draw);
    let mut looped = turned(&full(&mut draw));
    // edges fall here: this one rises, and another goes, so that their number stays
    looped[5].pop();
    looped[1_000].push(300);
    let mut ring = chain(MAX_TASKS);
    ring[0].push(1_023);
    let mut tail = chain(MAX_TASKS);
    tail[1_000].push(1_023);
    let mut head = turned(&chain(MAX_TASKS));
    head[1_020].push(1_010);
    let mut twice = chain(MAX_TASKS);
    twice[1_023].extend([7, 8, 7]);
    let mut bad = chain(MAX_TASKS);
    bad[1_023].push(1_024);
    [
        noted("1,024 tasks and 8,192 edges without a cycle", [plain(&lists)]),
        noted("the same size with a cycle", [plain(&looped)]),
        noted("1,016 tasks before each of 8", [plain(&wide())]),
        noted(
            "a chain of 1,024 tasks, rising and falling",
            [plain(&chain(MAX_TASKS)), plain(&turned(&chain(MAX_TASKS)))],
        ),
        noted("a ring of 1,024 tasks", [plain(&ring)]),
        noted(
            "a cycle at the end of a chain; one at the start",
            [plain(&tail), plain(&head)],
        ),
        noted(
            "a predecessor twice in task 1,023; a predecessor 1,024",
            [plain(&twice), plain(&bad)],
        ),
    ]
    .concat()
}
