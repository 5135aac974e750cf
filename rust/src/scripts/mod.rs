//! The cases of the program `run_trials`, from fixed seeds: document 01's examples, graphs of every shape with few and many
//! workers and slots, refused calls in the middle of runs, refused begins, random graphs, and the largest.

mod random;
mod refusals;
mod shapes;

use crate::draw::Draw;
use crate::memory::Memory;
use crate::model::{Graph, Table};
use crate::script::{Command, Line, Order, Script, Sizes, Told};

/// The numbers of workers and slots that runs are tried with.
pub const WORKERS: [usize; 5] = [1, 2, 3, 5, 16];
pub const SLOTS: [usize; 4] = [2, 3, 4, 64];

/// More steps than any run has.
const UNTIL_IDLE: u32 = 1_000_000;

/// Every case, in the order of the files.
pub fn all() -> Vec<Line> {
    [
        refusals::examples(),
        shapes::small(),
        shapes::every_size(),
        refusals::begins(),
        refusals::lengths(),
        refusals::full_rings(),
        refusals::within_runs(),
        random::runs(),
        random::with_refusals(),
        shapes::most_roots(),
        shapes::largest(),
        unreadable(),
    ]
    .concat()
}

/// A note with the scripts that it speaks of.
fn noted(words: &str, scripts: impl IntoIterator<Item = Script>) -> Vec<Line> {
    let mut lines = vec![Line::Note(String::from(words))];
    lines.extend(scripts.into_iter().map(Line::Run));
    lines
}

/// The graph's lists, sized for P and K, and what is done with them.
fn script(graph: Graph, sizes: Sizes, fill: u32, commands: Vec<Command>) -> Script {
    let Table { starts, words } = graph.preds;
    let memory = Memory::sized(graph.weights, starts, words, sizes.p, sizes.k, fill);
    Script { fill, memory, commands }
}

/// Begin, turns until nobody can go on, and the lists.
fn whole_run(sizes: Sizes, order: Order, told: Told) -> Vec<Command> {
    vec![
        Command::Begin(sizes),
        Command::Turns(sizes, order, UNTIL_IDLE, told),
        Command::Lists,
    ]
}

fn graph_of(weights: &[u32], lists: &[&[u32]]) -> Graph {
    let lists: Vec<Vec<u32>> = lists.iter().map(|list| list.to_vec()).collect();
    Graph {
        weights: weights.to_vec(),
        preds: Table::of(&lists),
    }
}

/// The diamond that the desk program is shown on.
fn diamond() -> Graph {
    graph_of(&[0, 5, 3, 0], &[&[], &[0], &[0], &[1, 2]])
}

/// One worker after the other.
const ROUND: Order = Order { first: 0, stride: 1 };

/// An order in which every worker comes: the stride has no divisor in common with P.
fn any_order(draw: &mut Draw, p: usize) -> Order {
    let strides: Vec<usize> = (0..p).filter(|&stride| greatest_divisor(stride, p) == 1).collect();
    Order {
        first: draw.below(p) as u32,
        stride: draw.pick(&strides) as u32,
    }
}

fn greatest_divisor(a: usize, b: usize) -> usize {
    match b {
        0 => a,
        _ => greatest_divisor(b, a % b),
    }
}

/// A word for the lists that begin has to write over; as a counter it is not negative.
fn any_fill(draw: &mut Draw) -> u32 {
    draw.pick(&[0, 1, 65_535, 70_000, 2_147_483_647])
}

/// Lines that are no case: the program answers each, and goes on.
fn unreadable() -> Vec<Line> {
    let lines = [
        "",
        "x",
        "r",
        "r 0 0 1 0 1 0 0 8 12 4 0 0 2",
        "r 0 0 1 0 1 0 0 8 12 4 0 0 2 2",
        "r 0 0 1 0 1 0 0 8 12 4 0 0 2 2 0 5",
        "r 0 0 1 0 1 0 0 8 12 4 0 0 2 2 0 5 0 0 0 0",
        "r 0 0 1 0 1 0 0 8 12 4 0 0 2 2 0 5 0 0 0 0 0 0",
        "r 0 0 1 0 1 0 0 8 12 4 0 0 2 2 0 5 0 0 0 0 0 ",
        "r 0 4294967295 4294967295 4294967295 1 0 0 8 12 4 0 0 2 2 0",
        "r 4294967296 0 1 0 1 0 0 8 12 4 0 0 2 2 0",
    ];
    let mut list = vec![Line::Note(String::from("lines that are no case"))];
    list.extend(lines.map(|line| Line::Unreadable(String::from(line))));
    list
}
