//! Refused calls: document 01's examples, begins refused with each number, lists of wrong lengths, wrong workers and other P
//! and K in the middle of a run.

use super::{diamond, graph_of, noted, script, whole_run, ROUND, UNTIL_IDLE};
use crate::memory::{List, Memory, Step};
use crate::model::{Graph, Table, MAX_EDGES, MAX_TASKS};
use crate::script::{Command, Line, Order, Script, Sizes, Told};

/// No worker but the first.
const ALONE: Order = Order { first: 0, stride: 0 };

/// The lists before and after a begin that is refused, and steps on what they hold then.
fn refused_begin(graph: Graph, sizes: Sizes) -> Script {
    let commands = vec![
        Command::Lists,
        Command::Begin(sizes),
        Command::Lists,
        Command::Step(sizes, 0, Step::Fetch),
    ];
    script(graph, sizes, 70_000, commands)
}

/// "The roots' limit becomes P·K", "all P rings empty", "degree would be 0 and all P rings filled by this worker are full", …
pub fn examples() -> Vec<Line> {
    let two = Sizes { p: 2, k: 2 };
    let one = Sizes { p: 1, k: 2 };
    let step = Command::Step;
    let first_task = [Step::Fetch, Step::Start, Step::Complete].map(|what| step(one, 0, what));
    let one_root = graph_of(&[1, 1], &[&[], &[0]]);
    let fork = graph_of(&[1, 2, 3, 4], &[&[], &[0], &[0], &[0]]);
    let begun = |sizes, commands: &[Command]| [&[Command::Begin(sizes)], commands, &[Command::Lists]].concat();
    let fills = [&first_task[..], &[step(one, 0, Step::Release); 3]].concat();
    [
        noted(
            "example 6: P 2, K 2, five roots",
            [refused_begin(graph_of(&[1; 5], &[&[][..]; 5]), two)],
        ),
        noted(
            "two, three and four roots, P 2, K 2",
            [2, 3, 4].map(|roots| {
                let graph = graph_of(&vec![1; roots], &vec![&[][..]; roots]);
                script(graph, two, 7, whole_run(two, ROUND, Told::All))
            }),
        ),
        noted(
            "example 7: P 2, worker 2",
            [script(diamond(), two, 7, begun(two, &[step(two, 2, Step::Fetch)]))],
        ),
        noted(
            "example 9: Complete in phase 0",
            [script(diamond(), two, 7, begun(two, &[step(two, 0, Step::Complete)]))],
        ),
        noted(
            "example 10: P 2, one root, worker 1 fetches first",
            [script(one_root, two, 7, begun(two, &[step(two, 1, Step::Fetch)]))],
        ),
        noted(
            "example 11: P 1, K 2, edges 0→1, 0→2, 0→3: third Release",
            [script(fork, one, 7, begun(one, &fills))],
        ),
    ]
    .concat()
}

/// Begin refused with each number, for tables and limits.
pub fn begins() -> Vec<Line> {
    let sizes = Sizes { p: 2, k: 4 };
    let heavy = graph_of(&[0, 65_536], &[&[], &[0]]);
    let with_starts = |starts: &[u32], words: &[u32]| Graph {
        weights: vec![0; 3],
        preds: Table {
            starts: starts.to_vec(),
            words: words.to_vec(),
        },
    };
    let loose = |n, e: usize| Graph {
        weights: vec![0; n],
        preds: Table {
            starts: vec![0; n + 1],
            words: vec![0; e],
        },
    };
    [
        noted(
            "begin refused with 2: a weight, N, E",
            [heavy, loose(MAX_TASKS + 1, 0), loose(0, MAX_EDGES + 1)].map(|graph| refused_begin(graph, sizes)),
        ),
        noted(
            "begin refused with 2 or 1: another P or K",
            [
                (0, 4),
                (17, 4),
                (2, 0),
                (2, 1),
                (2, 65),
                (1, 4),
                (3, 4),
                (2, 3),
                (2, 5),
                (4, 2),
            ]
            .map(other_begin),
        ),
        noted(
            "begin refused with 3",
            [
                with_starts(&[0, 1, 0, 1], &[0]),
                with_starts(&[0, 0, 2, 1], &[0]),
                with_starts(&[1, 1, 1, 1], &[0]),
                with_starts(&[0, 0, 0, 0], &[0]),
                with_starts(&[0, 0, 0, 1], &[3]),
                with_starts(&[0, 0, 4_294_967_295, 1], &[0]),
            ]
            .map(|graph| refused_begin(graph, sizes)),
        ),
        noted(
            "begin refused with 4, with 5, with 6",
            [
                graph_of(&[0; 4], &[&[], &[0], &[0], &[1, 1]]),
                graph_of(&[0; 3], &[&[], &[2], &[1]]),
                graph_of(&[0; 3], &[&[], &[1], &[1]]),
                Graph::of_lists(&vec![Vec::new(); 9]),
            ]
            .map(|graph| refused_begin(graph, sizes)),
        ),
    ]
    .concat()
}

/// The diamond's lists for P 2 and K 4, begun with other numbers before and during a run.
fn other_begin((p, k): (usize, usize)) -> Script {
    let (sizes, other) = (Sizes { p: 2, k: 4 }, Sizes { p, k });
    let commands = vec![
        Command::Begin(other),
        Command::Begin(sizes),
        Command::Turns(sizes, ROUND, 6, Told::Nothing),
        Command::Lists,
        Command::Begin(other),
        Command::Lists,
        Command::Turns(sizes, ROUND, UNTIL_IDLE, Told::Accepted),
    ];
    script(diamond(), sizes, 70_000, commands)
}

/// Each list longer or shorter by one: begin and every step are refused.
pub fn lengths() -> Vec<Line> {
    let sizes = Sizes { p: 2, k: 2 };
    let mut scripts = Vec::new();
    for list in List::ALL {
        for more in [false, true] {
            let commands = vec![Command::Begin(sizes), Command::Every(sizes, ROUND), Command::Lists];
            let mut wrong = script(diamond(), sizes, 7, commands);
            lend_otherwise(&mut wrong.memory, list, more, wrong.fill);
            scripts.push(wrong);
        }
    }
    noted("each list shorter and longer by one", scripts)
}

fn lend_otherwise(memory: &mut Memory, list: List, more: bool, fill: u32) {
    let length = memory.length(list);
    memory.lend(list, if more { length + 1 } else { length - 1 }, fill);
}

/// Worker 0 alone places successors until all its rings are full; then the others go on.
pub fn full_rings() -> Vec<Line> {
    let sizes = [1, 2, 3, 5].into_iter().flat_map(|p| [2, 3, 4].map(|k| Sizes { p, k }));
    let scripts = sizes.map(|sizes| {
        let lists = [vec![Vec::new()], vec![vec![0]; sizes.p * sizes.k + 3]].concat();
        let commands = vec![
            Command::Begin(sizes),
            Command::Turns(sizes, ALONE, UNTIL_IDLE, Told::All),
            Command::Lists,
            Command::Every(sizes, last_first(sizes.p)),
            Command::Turns(sizes, ROUND, UNTIL_IDLE, Told::Accepted),
            Command::Lists,
        ];
        script(Graph::of_lists(&lists), sizes, 7, commands)
    });
    noted("all rings of a worker are full", scripts)
}

/// Wrong workers, other P and K, steps of all workers and another begin, after each few steps of a run.
pub fn within_runs() -> Vec<Line> {
    let graph = || {
        graph_of(
            &[3, 1, 4, 1, 5, 9, 2],
            &[&[], &[0], &[0], &[0], &[0], &[1, 2], &[3, 4, 5]],
        )
    };
    let sizes = [(1, 2), (1, 4), (2, 2), (2, 4), (3, 2), (5, 3), (16, 64)];
    let scripts = sizes.map(|(p, k)| {
        let sizes = Sizes { p, k };
        script(graph(), sizes, 65_535, interrupted(sizes))
    });
    noted("refused calls in the middle of a run", scripts)
}

fn interrupted(sizes: Sizes) -> Vec<Command> {
    let Sizes { p, k } = sizes;
    let mut commands = vec![Command::Begin(sizes)];
    for steps in [1, 3, 7] {
        commands.push(Command::Turns(sizes, ALONE, steps, Told::All));
        for what in Step::ALL {
            commands.push(Command::Step(sizes, p as u32, what));
            commands.push(Command::Step(sizes, u32::MAX, what));
            for (p, k) in [(p + 1, k), (p, k + 1), (0, k), (17, k), (p, 1), (p, 65)] {
                commands.push(Command::Step(Sizes { p, k }, 0, what));
            }
        }
        commands.push(Command::Lists);
        commands.push(Command::Every(sizes, last_first(p)));
    }
    commands.push(Command::Begin(sizes));
    commands.extend(whole_run(sizes, ROUND, Told::All));
    commands.push(Command::Every(sizes, ROUND));
    commands
}

/// From the last worker downward.
fn last_first(p: usize) -> Order {
    let last = p as u32 - 1;
    Order {
        first: last,
        stride: last,
    }
}
