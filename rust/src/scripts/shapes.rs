//! Whole runs of graphs of every shape.

use super::{any_fill, any_order, diamond, graph_of, noted, script, whole_run, ROUND, SLOTS, UNTIL_IDLE, WORKERS};
use crate::draw::Draw;
use crate::measured;
use crate::model::{Graph, Table};
use crate::script::{Command, Line, Script, Sizes, Told};
use crate::trials::random::{acyclic, Lists};

/// A chain 0 → 1 → 2 → …
fn chain(n: u32) -> Lists {
    (0..n).map(|task| (task.max(1) - 1..task).collect()).collect()
}

/// Task 0 before all others.
fn fork(n: u32) -> Lists {
    (0..n).map(|task| (0..task.min(1)).collect()).collect()
}

/// All others, each without a predecessor, before the last task.
fn star(n: u32) -> Lists {
    let roots = vec![Vec::new(); n as usize - 1];
    [roots, vec![(0..n - 1).collect()]].concat()
}

/// Task 0, then all others but the last side by side, then the last.
fn fork_join(n: u32) -> Lists {
    let mut lists = fork(n);
    lists[n as usize - 1] = (1..n - 1).collect();
    lists
}

/// Each task after every task of the layer before.
fn layers(n: u32, width: u32) -> Lists {
    let before = |task: u32| match task / width {
        0 => Vec::new(),
        layer => ((layer - 1) * width..layer * width).collect(),
    };
    (0..n).map(before).collect()
}

/// Each task after all tasks before it.
fn dense(n: u32) -> Lists {
    (0..n).map(|task| (0..task).collect()).collect()
}

/// Weights that differ, some of them 0.
fn weighed(lists: &Lists) -> Graph {
    let weights = (0..lists.len() as u32).map(|task| task * 7 % 5).collect();
    Graph {
        weights,
        preds: Table::of(lists),
    }
}

/// Graphs of up to two tasks, with every answer printed.
pub fn small() -> Vec<Line> {
    let graphs = [
        graph_of(&[], &[]),
        graph_of(&[65_535], &[&[]]),
        graph_of(&[1, 2], &[&[], &[]]),
        graph_of(&[1, 2], &[&[], &[0]]),
        graph_of(&[1, 2], &[&[1], &[]]),
        diamond(),
    ];
    let mut scripts = Vec::new();
    for graph in graphs {
        for (p, k) in [(1, 3), (2, 2), (3, 4)] {
            let sizes = Sizes { p, k };
            scripts.push(script(graph.clone(), sizes, 1, whole_run(sizes, ROUND, Told::All)));
        }
    }
    noted("no task, one, two, and the diamond: every answer", scripts)
}

/// Each shape with each number of workers and slots.
pub fn every_size() -> Vec<Line> {
    let mut draw = Draw::new(1);
    let shapes: [(&str, Lists); 9] = [
        ("a chain", chain(7)),
        ("a fork", fork(9)),
        ("a star", star(9)),
        ("a fork and a join", fork_join(8)),
        ("layers of three", layers(12, 3)),
        ("layers of one and a half", layers(5, 2)),
        ("every edge", dense(7)),
        ("any edges", acyclic(&mut draw, 14, 20)),
        ("few edges", acyclic(&mut draw, 10, 4)),
    ];
    shapes
        .iter()
        .flat_map(|(name, lists)| every_size_of(&mut draw, name, lists))
        .collect()
}

fn every_size_of(draw: &mut Draw, name: &str, lists: &Lists) -> Vec<Line> {
    let sizes = WORKERS.iter().flat_map(|&p| SLOTS.map(|k| Sizes { p, k }));
    let scripts = sizes.map(|sizes| {
        let order = any_order(draw, sizes.p);
        let commands = whole_run(sizes, order, Told::Accepted);
        script(weighed(lists), sizes, any_fill(draw), commands)
    });
    noted(name, scripts.collect::<Vec<_>>())
}

/// As many roots as there is room for, P·K, and one more, with the most workers; with the most slots there is room for the most
/// tasks.
pub fn most_roots() -> Vec<Line> {
    let run_of = |(roots, k)| {
        let sizes = Sizes { p: 16, k };
        let graph = Graph::of_lists(&vec![Vec::new(); roots]);
        script(graph, sizes, 7, whole_run(sizes, ROUND, Told::Nothing))
    };
    noted(
        "K 63: 1,008 roots, 1,009; K 64: 1,024 roots",
        [(1_008, 63), (1_009, 63), (1_024, 64)].map(run_of),
    )
}

/// 1,024 tasks and 8,192 edges, with the lists printed on the way.
pub fn largest() -> Vec<Line> {
    let memory = measured::memory(1_024, 1);
    let graph = Graph {
        weights: memory.weights,
        preds: Table {
            starts: memory.pred_starts,
            words: memory.preds,
        },
    };
    noted("1,024 tasks, 8,192 edges", [in_parts(graph, Sizes { p: 5, k: 64 })])
}

/// A run with the lists printed at several places of it, and a few of its steps.
fn in_parts(graph: Graph, sizes: Sizes) -> Script {
    let mut draw = Draw::new(2);
    let mut commands = vec![Command::Begin(sizes), Command::Lists];
    for steps in [1_000, 3_000, 5_000, UNTIL_IDLE] {
        let order = any_order(&mut draw, sizes.p);
        commands.push(Command::Turns(sizes, order, 200, Told::Accepted));
        commands.push(Command::Turns(sizes, order, steps, Told::Nothing));
        commands.push(Command::Lists);
    }
    script(graph, sizes, 2_147_483_647, commands)
}
