//! Graphs with cycles in shapes that cost a search much, of any size: request 7's check is compared and measured on them.

use crate::draw::Draw;
use crate::model::{word, Graph};
use crate::trials::random::{acyclic, add_edge, weighed, Lists};

#[derive(Clone, Copy, Debug, PartialEq, Eq)]
pub enum Shape {
    /// A core in which each task waits for all others, a chain of low numbers behind it, and a cycle of two at the chain's end.
    DenseCore,
    /// A chain of low numbers, each with edges to later ones, before a cycle of two.
    LongChain,
    /// A graph without cycles, and behind it a cycle of the last two tasks.
    TwoAtTheEnd,
    /// One cycle over all tasks but the first, and in it a cycle over all of these but two, and so on.
    Nested,
    /// A loop on each task.
    AllLoops,
    /// Edges between any two tasks.
    Random,
}

pub const SHAPES: [(&str, Shape); 6] = [
    ("dense core", Shape::DenseCore),
    ("long chain of low numbers", Shape::LongChain),
    ("cycle of two at the end", Shape::TwoAtTheEnd),
    ("nested cycles", Shape::Nested),
    ("all loops", Shape::AllLoops),
    ("random edges", Shape::Random),
];

impl Shape {
    pub fn named(name: &str) -> Option<Shape> {
        SHAPES.iter().find(|shape| shape.0 == name).map(|shape| shape.1)
    }

    /// The graph of this shape with `tasks` tasks, at least 4, and `edges` edges, or some fewer where these don't fit.
    pub fn graph(self, tasks: usize, edges: usize, seed: u64) -> Graph {
        let mut draw = Draw::new(seed);
        let mut lists = match self {
            Shape::DenseCore => dense_core(tasks, edges),
            Shape::LongChain => before_two(chain(tasks - 2)),
            Shape::TwoAtTheEnd => before_two(acyclic(&mut draw, tasks - 2, edges)),
            Shape::Nested => nested(tasks),
            Shape::AllLoops => (0..tasks).map(|task| vec![word(task)]).collect(),
            Shape::Random => vec![Vec::new(); tasks],
        };
        let mut missing = edges.saturating_sub(lists.iter().map(Vec::len).sum());
        for _ in 0..4 * edges {
            let (u, t) = (draw.below(tasks), draw.below(tasks));
            if missing > 0 && self.admits(u, t, &lists) {
                lists[t].push(word(u));
                missing -= 1;
            }
        }
        weighed(&mut draw, &lists)
    }

    /// Whether a further edge from u to t leaves the shape what it is.
    fn admits(self, u: usize, t: usize, lists: &Lists) -> bool {
        let fits = match self {
            Shape::DenseCore => u < t && lists[t].len() < 16 && t < chained(lists),
            Shape::LongChain | Shape::AllLoops => u < t,
            Shape::TwoAtTheEnd => false,
            Shape::Nested => t > 0,
            Shape::Random => true,
        };
        fits && !lists[t].contains(&word(u))
    }
}

/// How many tasks, from 0 on, are in a chain: the next one doesn't wait for the one before it.
fn chained(lists: &Lists) -> usize {
    let broken = |&task: &usize| !lists[task].contains(&word(task - 1));
    (1..lists.len()).find(broken).unwrap_or(lists.len())
}

/// 0 → 1 → … → N−1.
fn chain(tasks: usize) -> Lists {
    (0..tasks)
        .map(|task| task.checked_sub(1).map(word).into_iter().collect())
        .collect()
}

/// The graph with two more tasks, which wait for each other, and one of them for the last task before.
fn before_two(mut lists: Lists) -> Lists {
    let first = word(lists.len());
    lists.push(vec![first - 1, first + 1]);
    lists.push(vec![first]);
    lists
}

/// A core that takes up to three quarters of the edges, behind it the chain, which has the low numbers, then the cycle of two.
fn dense_core(tasks: usize, edges: usize) -> Lists {
    let most = tasks - 3;
    let size = (1..=most)
        .take_while(|size| 4 * size * size <= 3 * edges)
        .last()
        .unwrap_or(1);
    let first = tasks - 2 - size;
    let mut lists = chain(first);
    let core = word(first)..word(tasks - 2);
    lists.extend(
        core.clone()
            .map(|task| core.clone().filter(|&other| other != task).collect()),
    );
    lists[0].push(core.start);
    lists.push(vec![word(first - 1), word(tasks - 1)]);
    lists.push(vec![word(tasks - 2)]);
    lists
}

/// 0 → 1 → … → N−1, and an edge back to 1 from the last task, to 2 from the one before it, and so on.
fn nested(tasks: usize) -> Lists {
    let mut lists = chain(tasks);
    for (inner, outer) in (1..tasks)
        .zip((1..tasks).rev())
        .take_while(|(inner, outer)| inner <= outer)
    {
        add_edge(&mut lists, word(outer), word(inner));
    }
    lists
}
