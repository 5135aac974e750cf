//! Random graphs as lists of predecessors.

use super::noted;
use crate::draw::Draw;
use crate::model::{Graph, Table};
use crate::text::{GraphTrial, Trial};

/// Each task's predecessors.
pub type Lists = Vec<Vec<u32>>;

/// A graph without cycles of n tasks and about e edges: predecessors come from earlier places of a random order.
pub fn acyclic(draw: &mut Draw, n: usize, e: usize) -> Lists {
    let mut order: Vec<u32> = (0..n as u32).collect();
    draw.shuffle(&mut order);
    let mut lists = vec![Vec::new(); n];
    if n < 2 {
        return lists;
    }
    for _ in 0..e {
        let late = draw.between(1, n - 1);
        add_edge(&mut lists, order[draw.below(late)], order[late]);
    }
    lists.iter_mut().for_each(|list| draw.shuffle(list));
    lists
}

/// Adds the edge from u to t, unless it is there.
pub fn add_edge(lists: &mut Lists, u: u32, t: u32) {
    let list = &mut lists[t as usize];
    if !list.contains(&u) {
        list.push(u);
    }
}

/// Closes a cycle over `length` tasks of the graph and names them.
pub fn add_cycle(draw: &mut Draw, lists: &mut Lists, length: usize) {
    let mut tasks: Vec<u32> = (0..lists.len() as u32).collect();
    draw.shuffle(&mut tasks);
    tasks.truncate(length);
    for (i, &t) in tasks.iter().enumerate() {
        add_edge(lists, tasks[(i + 1) % tasks.len()], t);
    }
}

/// The graph of the lists, with weights up to the limit.
pub fn weighed(draw: &mut Draw, lists: &Lists) -> Graph {
    let heaviest = draw.pick(&[9, 99, 65_535]);
    Graph {
        weights: lists.iter().map(|_| draw.between(0, heaviest) as u32).collect(),
        preds: Table::of(lists),
    }
}

/// Acceptable graphs of all sizes up to about a hundred tasks.
pub fn accepted() -> Vec<Trial> {
    let mut draw = Draw::new(1);
    let graphs = (0..120).map(|i| {
        let n = 1 + i * i / 150;
        let e = draw.below(4 * n);
        let lists = acyclic(&mut draw, n, e);
        GraphTrial::of(weighed(&mut draw, &lists))
    });
    noted("random graphs without a cycle", graphs)
}

/// The same with one to three cycles, so that tasks stand before, behind and between them.
pub fn cyclic() -> Vec<Trial> {
    let mut draw = Draw::new(2);
    let graphs = (0..160).map(|i| {
        let n = 2 + i / 4;
        let e = draw.below(2 * n);
        let mut lists = acyclic(&mut draw, n, e);
        for _ in 0..=draw.below(3) {
            let length = 1 + draw.below(n.min(6));
            add_cycle(&mut draw, &mut lists, length);
        }
        GraphTrial::of(weighed(&mut draw, &lists))
    });
    noted("random graphs with cycles", graphs)
}
