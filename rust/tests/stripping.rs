//! Request 7 on the model: what stripping leaves, whatever the order; its examples; and 5 on graphs with cycles by the plain
//! check.

use engine_model::cyclic::SHAPES;
use engine_model::draw::Draw;
use engine_model::memory::Memory;
use engine_model::model::{check, Graph, Limits, Refusal};
use engine_model::plain_engine::{self, Lent};
use engine_model::trials::random::{acyclic, add_cycle};

fn graph(lists: &[&[u32]]) -> Graph {
    let lists: Vec<Vec<u32>> = lists.iter().map(|list| list.to_vec()).collect();
    Graph::of_lists(&lists)
}

fn left(n: usize, order: &[usize]) -> Vec<usize> {
    (0..n).filter(|task| !order.contains(task)).collect()
}

/// The last of those that can go: "last to first".
fn last(next: &[usize]) -> usize {
    next.len() - 1
}

fn cycle(detail: u32) -> Result<(), Refusal> {
    Err(Refusal { number: 5, detail })
}

#[test]
fn the_examples() {
    let examples: [(Graph, &[usize], &[usize], Result<(), Refusal>); 4] = [
        // 0→1, 1→2, 2→1, 2→3
        (graph(&[&[], &[0, 2], &[1], &[2]]), &[3], &[0, 1, 2], cycle(1)),
        // a loop with a task before it
        (graph(&[&[], &[0, 1]]), &[], &[0, 1], cycle(1)),
        // 3⇄4 → 2 → 5⇄1 → 0: task 2 is on no cycle
        (
            graph(&[&[1], &[5], &[4], &[4], &[3], &[2, 1]]),
            &[0],
            &[1, 2, 3, 4, 5],
            cycle(1),
        ),
        // the diamond
        (graph(&[&[], &[0], &[0], &[1, 2]]), &[3, 2, 1, 0], &[], Ok(())),
    ];
    for (graph, order, tasks, answer) in examples {
        assert_eq!(graph.strip(last), order);
        assert_eq!(left(graph.weights.len(), order), tasks);
        assert_eq!(check(Limits::ENGINE, &graph), answer);
    }
}

#[test]
fn the_tasks_left_are_those_on_or_before_a_cycle_whatever_the_order() {
    let mut draw = Draw::new(7);
    for round in 0..400 {
        let n = 1 + round % 12;
        let e = draw.below(2 * n + 1);
        let mut lists = acyclic(&mut draw, n, e);
        for _ in 0..draw.below(3) {
            let length = 1 + draw.below(n.min(4));
            add_cycle(&mut draw, &mut lists, length);
        }
        let graph = Graph::of_lists(&lists);
        let before: Vec<usize> = (0..n).filter(|&task| graph.leads_to_cycle(task)).collect();
        for _ in 0..4 {
            let order = graph.strip(|next| draw.below(next.len()));
            assert_eq!(left(n, &order), before, "{lists:?}");
        }
        // 5 is judged on the tasks left: given exactly if there are some, and its detail is one of them on a cycle
        match check(Limits::ENGINE, &graph) {
            Ok(()) => assert!(before.is_empty()),
            Err(refusal) => {
                let named = before.iter().copied().find(|&task| graph.on_cycle(task));
                assert_eq!(Some(refusal.detail as usize), named, "{lists:?}");
            }
        }
    }
}

#[test]
fn the_plain_check_names_the_same_task() {
    for (name, shape) in SHAPES {
        for tasks in [4, 5, 9, 64, 1_024] {
            let graph = shape.graph(tasks, 8 * tasks, 1);
            let Graph { weights, preds } = graph.clone();
            let mut memory = Memory::sized(weights, preds.starts, preds.words, 1, 64, 3);
            let answer = plain_engine::begin(&mut Lent::of(&mut memory), 1, 64);
            assert_eq!(answer, check(Limits::ENGINE, &graph), "{name}, {tasks} tasks");
        }
    }
}
