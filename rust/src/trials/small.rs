//! The examples of document 01, and every table and graph of a few tasks.

use super::noted;
use crate::model::{Graph, Table};
use crate::text::{GraphTrial, Trial};

fn graph_of(lists: &[&[u32]]) -> Graph {
    let lists: Vec<Vec<u32>> = lists.iter().map(|list| list.to_vec()).collect();
    Graph {
        weights: vec![1; lists.len()],
        preds: Table::of(&lists),
    }
}

/// The diamond that the desk program is shown on.
fn diamond() -> Graph {
    Graph {
        weights: vec![0, 5, 3, 0],
        preds: graph_of(&[&[], &[0], &[0], &[1, 2]]).preds,
    }
}

pub fn examples() -> Vec<Trial> {
    let short = GraphTrial {
        lent: [5, 4, 3],
        ..GraphTrial::of(diamond())
    };
    let of = |lists: &[&[u32]]| GraphTrial::of(graph_of(lists));
    [
        noted("example 1: N 4, degrees of 3 words", [short]),
        noted("example 3: N 2, predecessor 2", [of(&[&[], &[2]])]),
        noted("example 4: task 3: 1, 1", [of(&[&[], &[0], &[0], &[1, 1]])]),
        noted("example 5: 1 after 2, 2 after 1: detail 1", [of(&[&[], &[2], &[1]])]),
        noted("the diamond", [GraphTrial::of(diamond())]),
    ]
    .concat()
}

/// Every list of `length` numbers up to `most`.
fn every_list(length: usize, most: u32) -> Vec<Vec<u32>> {
    let mut lists = vec![Vec::new()];
    for _ in 0..length {
        let longer = |list: &Vec<u32>| {
            (0..=most)
                .map(|word| [list.as_slice(), &[word]].concat())
                .collect::<Vec<_>>()
        };
        lists = lists.iter().flat_map(longer).collect();
    }
    lists
}

/// Every table of n tasks and e words, with starts up to e+1 and predecessors up to n.
fn every_table_of(n: usize, e: usize) -> Vec<Trial> {
    let mut trials = Vec::new();
    for starts in every_list(n + 1, e as u32 + 1) {
        for words in every_list(e, n as u32) {
            let weights = vec![0; n];
            let starts = starts.clone();
            let preds = Table { starts, words };
            trials.push(GraphTrial::of(Graph { weights, preds }));
        }
    }
    noted(
        &format!("every table of N {n} and E {e}, starts up to E+1, predecessors up to N"),
        trials,
    )
}

pub fn every_table() -> Vec<Trial> {
    let sizes = [(0, 0), (0, 1), (0, 2), (1, 0), (1, 1), (1, 2), (2, 0), (2, 1), (2, 2)];
    sizes.iter().flat_map(|&(n, e)| every_table_of(n, e)).collect()
}

/// Every set of edges between three tasks, loops on one task included.
pub fn every_graph_of_three() -> Vec<Trial> {
    let graphs = (0..512u32).map(|edges| {
        let preds_of = |t: u32| (0..3).filter(|u| edges >> (3 * t + u) & 1 == 1).collect();
        let lists: Vec<Vec<u32>> = (0..3).map(preds_of).collect();
        GraphTrial::of(Graph::of_lists(&lists))
    });
    noted("every graph of three tasks", graphs)
}
