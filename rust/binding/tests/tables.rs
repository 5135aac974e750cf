//! Tables from edges, and as a drawing, on graphs of many shapes.

use engine_model::draw::Draw;
use engine_model::model::{self, Graph, Limits};
use engine_model::runs::graphs;
use std::collections::BTreeSet;
use yolluvek::{Job, Refusal, Tables, TaskId};

/// Every edge of a graph, from a predecessor to its task.
fn edges(graph: &Graph) -> Vec<(u32, u32)> {
    let parts = graph.preds.starts.windows(2).zip(0..);
    let of_task = |(part, task): (&[u32], u32)| {
        let preds = &graph.preds.words[part[0] as usize..part[1] as usize];
        preds.iter().map(move |&pred| (pred, task)).collect::<Vec<_>>()
    };
    parts.flat_map(of_task).collect()
}

fn sorted(mut list: Vec<(u32, u32)>) -> Vec<(u32, u32)> {
    list.sort_unstable();
    list
}

/// In the tables' own order of edges, the tables; in any other, the same edges.
#[test]
fn from_edges() {
    for seed in 0..500 {
        let draw = &mut Draw::new(seed);
        let graph = graphs::any(draw, 40);
        let mut list = edges(&graph);
        let tables = Tables::from_edges(graph.weights.clone(), list.clone());
        let numbers: Vec<u32> = tables.preds.iter().map(|task| task.number()).collect();
        assert_eq!(tables.weights, graph.weights);
        assert_eq!(tables.pred_starts, graph.preds.starts);
        assert_eq!(numbers, graph.preds.words);

        draw.shuffle(&mut list);
        let shuffled = Tables::from_edges(&graph.weights[..], list.iter().copied());
        assert_eq!(shuffled.pred_starts, tables.pred_starts);
        let Tables { pred_starts, preds, .. } = shuffled;
        for (part, task) in pred_starts.windows(2).zip(0..) {
            let found = &preds[part[0] as usize..part[1] as usize];
            let given = list.iter().filter(|(_, to)| *to == task);
            let given: Vec<TaskId> = given.map(|&(from, _)| TaskId::new(from)).collect();
            assert_eq!(found, given, "a task's predecessors keep their order");
        }
    }
}

/// Ids do as well as numbers.
#[test]
fn from_edges_of_ids() {
    let edge = (TaskId::new(0), TaskId::from(1));
    assert_eq!(
        Tables::from_edges(vec![1, 2], [edge]),
        Tables::from_edges([1, 2], [(0, 1)])
    );
}

/// An edge from or to a task that isn't there is judged by the library, whatever else is right.
#[test]
fn edges_of_no_task() {
    let numbers = |tables: Tables| tables.check().map_err(|refusal| (refusal.number(), refusal.detail()));
    let to = [(0, 1), (0, u32::MAX), (0, 2)];
    assert_eq!(numbers(Tables::from_edges([1, 1], to)), Err((3, 2)));
    assert_eq!(numbers(Tables::from_edges([1, 1], [(2, 1)])), Err((3, 1)));
    assert_eq!(numbers(Tables::from_edges([], [(0, 0)])), Err((3, 0)));
}

/// The edge is named, with number and detail of the tables that it makes.
#[test]
fn a_wrong_edge_is_named() {
    let named = |weights: &[u32], edges: &[(u32, u32)], place: usize, missing: u32| {
        let refusal = Tables::try_from_edges(weights, edges.iter().copied()).unwrap_err();
        let ((from, to), tasks) = (edges[place], weights.len());
        let words = refusal.to_string();
        let [from, to] = [from, to].map(TaskId::new);
        assert_eq!(refusal, Refusal::BadEdge { place, from, to, tasks });
        assert!(words.starts_with(&format!(
            "edge {place} leads from task {from} to task {to}: task {missing} "
        )));
        let tables = Tables::from_edges(weights, edges.iter().copied());
        let by_check = tables.check().unwrap_err();
        assert_eq!(
            (refusal.number(), refusal.detail()),
            (by_check.number(), by_check.detail())
        );
    };
    named(&[1, 1], &[(0, 1), (0, u32::MAX), (0, 2)], 1, u32::MAX);
    named(&[1, 1], &[(0, 1), (2, 1)], 1, 2);
    named(&[1, 1, 1], &[(0, 7), (9, 2), (8, 1), (6, 1)], 2, 8);
    named(&[], &[(0, 0)], 0, 0);
    named(&[1], &[(5, 4)], 0, 4);
    // what isn't of an edge stays, and what is right is accepted
    let cycle = Tables::try_from_edges([1, 1], [(0, 1), (1, 0)]).unwrap_err();
    assert_eq!(cycle.number(), 5);
    let tables = Tables::try_from_edges([1, 1], [(0, 1)]);
    assert_eq!(tables, Ok(Tables::from_edges([1, 1], [(0, 1)])));
}

/// "N 0 (0 steps, begun is finished)"
#[test]
fn default_is_the_graph_without_tasks() {
    let tables = Tables::default();
    assert_eq!(tables.check(), Ok(()));
    assert_eq!(tables, Tables::from_edges([], [(0, 0); 0]));
    let mut job = Job::from_tables(tables, 1, 2);
    assert_eq!(job.begin(), Ok(()));
    assert!(job.is_finished());
}

/// The drawing has every weight, and every edge as often as the tables.
#[test]
fn dot() {
    for seed in 0..200 {
        let graph = graphs::any(&mut Draw::new(seed), 40);
        let drawing = Tables::from_edges(graph.weights.clone(), edges(&graph)).dot();
        let lines: Vec<&str> = drawing.lines().collect();
        assert_eq!((lines[0], lines[lines.len() - 1]), ("digraph tasks {", "}"));
        let inner = lines[1..lines.len() - 1].iter().map(|line| line.trim_start());
        let (arrows, nodes): (Vec<&str>, Vec<&str>) = inner.partition(|line| line.contains(" -> "));
        let arrow = |line: &str| {
            let (from, to) = line.strip_suffix(';')?.split_once(" -> ")?;
            from.parse().ok().zip(to.parse().ok())
        };
        let arrows: Option<Vec<(u32, u32)>> = arrows.into_iter().map(arrow).collect();
        assert_eq!(sorted(arrows.expect("numbers")), sorted(edges(&graph)));
        let labels = graph.weights.iter().enumerate();
        let labels: Vec<String> = labels
            .map(|(t, weight)| format!("{t} [label=\"{t}: {weight}\"];"))
            .collect();
        assert_eq!(nodes, labels);
    }
}

/// Of graphs with cycles: the way starts at the library's detail, goes from each task to a predecessor, meets none twice
/// and comes back.
#[test]
fn cycles_are_named_whole() {
    let mut lengths = BTreeSet::new();
    for seed in 0..3_000 {
        let draw = &mut Draw::new(seed);
        let graph = graphs::any(draw, 30);
        let n = graph.weights.len();
        if n == 0 {
            continue;
        }
        let given: BTreeSet<(u32, u32)> = edges(&graph).into_iter().collect();
        let back = (0..draw.between(1, 3)).map(|_| (draw.below(n) as u32, draw.below(n) as u32));
        let list: BTreeSet<(u32, u32)> = given.into_iter().chain(back).collect();
        let tables = Tables::from_edges(graph.weights, list.iter().copied());
        let Err(Refusal::Cycle { task, path }) = tables.check() else {
            assert_eq!(tables.check(), Ok(()));
            continue;
        };
        assert_eq!(expected(&tables), Some((5, task.number())));
        assert_eq!(path.first(), Some(&task));
        assert_eq!(path.iter().collect::<BTreeSet<_>>().len(), path.len());
        let next = path.iter().cycle().skip(1);
        assert!(path
            .iter()
            .zip(next)
            .all(|(on, pred)| list.contains(&(pred.number(), on.number()))));
        assert_eq!(path.len(), shortest(&list, task.number()));
        let words = path.iter().chain([&task]).map(|on| on.to_string());
        let words = words.collect::<Vec<_>>().join(" after ");
        let refusal = Job::from_tables(tables, 2, 64).begin().unwrap_err();
        assert_eq!(refusal.to_string(), format!("the tasks form a cycle: {words}"));
        lengths.insert(path.len());
    }
    assert!(lengths.contains(&1) && lengths.len() >= 8, "lengths {lengths:?}");
}

/// In how few edges a task on a cycle leads back to itself.
fn shortest(edges: &BTreeSet<(u32, u32)>, task: u32) -> usize {
    let mut reached = BTreeSet::from([task]);
    let mut length = 0;
    while length == 0 || !reached.contains(&task) {
        let preds = edges.iter().filter(|(_, to)| reached.contains(to));
        reached = preds.map(|&(from, _)| from).collect();
        length += 1;
    }
    length
}

/// The model's number and detail.
fn expected(tables: &Tables) -> Option<(u32, u32)> {
    let graph = Graph {
        weights: tables.weights.clone(),
        preds: model::Table {
            starts: tables.pred_starts.clone(),
            words: tables.preds.iter().map(|task| task.number()).collect(),
        },
    };
    let refusal = model::check(Limits::ENGINE, &graph).err()?;
    Some((refusal.number, refusal.detail))
}

/// A cycle through all tasks that there can be.
#[test]
fn the_longest_cycle() {
    let last = 1_023;
    let ring = (0..last).map(|task| (task + 1, task)).chain([(0, last)]);
    let Err(Refusal::Cycle { path, .. }) = Tables::from_edges([1; 1_024], ring).check() else {
        panic!("it is a cycle");
    };
    assert_eq!(path, (0..=last).map(TaskId::new).collect::<Vec<_>>());
}
