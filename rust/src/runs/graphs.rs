//! Graphs of many shapes as lists of predecessors.

use crate::draw::Draw;
use crate::engine::Limits;
use crate::model::{Graph, Table};
use crate::trials::random::{acyclic, add_edge, Lists};

#[derive(Clone, Copy, Debug)]
enum Shape {
    Chain,
    FanOut,
    FanIn,
    Layers,
    Dense,
    Sparse,
    Loose,
}

const SHAPES: [Shape; 7] = [
    Shape::Chain,
    Shape::FanOut,
    Shape::FanIn,
    Shape::Layers,
    Shape::Dense,
    Shape::Sparse,
    Shape::Loose,
];

/// A graph that begin accepts, but perhaps for its number of roots: any shape, up to `most` tasks, weights up to the limit.
pub fn any(draw: &mut Draw, most: usize) -> Graph {
    any_within(draw, Limits::ENGINE, most)
}

/// The same with no more edges than these limits take.
pub fn any_within(draw: &mut Draw, limits: Limits, most: usize) -> Graph {
    let lists = shaped_within(draw, limits, most);
    weighed(draw, &lists)
}

/// The predecessors of each task, up to `most` tasks of any shape.
pub fn shaped_up_to(draw: &mut Draw, most: usize) -> Lists {
    shaped_within(draw, Limits::ENGINE, most)
}

/// The same with no more edges than these limits take.
pub fn shaped_within(draw: &mut Draw, limits: Limits, most: usize) -> Lists {
    let n = draw.between(0, most);
    shaped(draw, n, limits.edges())
}

/// The graph of the lists with weights that are small, equal, large, or 0.
pub fn weighed(draw: &mut Draw, lists: &Lists) -> Graph {
    let (lightest, heaviest) = draw.pick(&[(0, 3), (1, 1), (0, 99), (0, 65_535), (65_535, 65_535), (0, 0)]);
    let mut weight = |_: &Vec<u32>| draw.between(lightest, heaviest) as u32;
    Graph {
        weights: lists.iter().map(&mut weight).collect(),
        preds: Table::of(lists),
    }
}

/// A few shapes with N at its limit and E at or near its own.
pub fn largest(draw: &mut Draw, limits: Limits) -> Graph {
    let (n, most) = (limits.tasks(), limits.edges());
    let lists = match draw.below(4) {
        // so wide that a run fills rings
        0 => layers(draw, n, n / 16, most),
        1 => shaped(draw, n, most),
        2 => chain(draw, n),
        _ => full(draw, n, most),
    };
    weighed(draw, &lists)
}

/// That many tasks, and at most so many edges.
fn shaped(draw: &mut Draw, n: usize, most: usize) -> Lists {
    if n < 2 {
        return vec![Vec::new(); n];
    }
    match draw.pick(&SHAPES) {
        Shape::Chain => chain(draw, n),
        Shape::FanOut => fan(draw, n, add_edge),
        Shape::FanIn => fan(draw, n, |lists, hub, task| add_edge(lists, task, hub)),
        Shape::Layers => {
            let width = draw.between(1, n);
            let edges = draw.between(n.min(most), (4 * n).min(most));
            layers(draw, n, width, edges)
        }
        Shape::Dense => {
            let edges = (n * (n - 1) / 2).min(most);
            acyclic(draw, n, edges)
        }
        Shape::Sparse => {
            let edges = draw.below(2 * n).min(most);
            acyclic(draw, n, edges)
        }
        Shape::Loose => vec![Vec::new(); n],
    }
}

fn shuffled(draw: &mut Draw, n: usize) -> Vec<u32> {
    let mut order: Vec<u32> = (0..n as u32).collect();
    draw.shuffle(&mut order);
    order
}

/// Each task after the one before it in a random order.
fn chain(draw: &mut Draw, n: usize) -> Lists {
    let order = shuffled(draw, n);
    let mut lists = vec![Vec::new(); n];
    order.windows(2).for_each(|pair| add_edge(&mut lists, pair[0], pair[1]));
    lists
}

/// One task joined with most of the others.
fn fan(draw: &mut Draw, n: usize, join: fn(&mut Lists, u32, u32)) -> Lists {
    let order = shuffled(draw, n);
    let mut lists = vec![Vec::new(); n];
    let joined = draw.between(n / 2, n - 1);
    order[1..=joined]
        .iter()
        .for_each(|&task| join(&mut lists, order[0], task));
    lists
}

/// Layers of `width` tasks; each task beyond the first layer has a predecessor in the layer before, most of them several.
fn layers(draw: &mut Draw, n: usize, width: usize, edges: usize) -> Lists {
    let order = shuffled(draw, n);
    let mut lists = vec![Vec::new(); n];
    for place in width..n {
        let before = place / width * width - width;
        add_edge(&mut lists, order[before + draw.below(width)], order[place]);
    }
    if width < n {
        for _ in n - width..edges {
            let place = draw.between(width, n - 1);
            let before = place / width * width - width;
            add_edge(&mut lists, order[before + draw.below(width)], order[place]);
        }
    }
    lists
}

/// Exactly as many edges as there may be: each task after as many of those just before it, and some after one more.
fn full(draw: &mut Draw, n: usize, most: usize) -> Lists {
    let order = shuffled(draw, n);
    let mut lists = vec![Vec::new(); n];
    let pairs = (1..n).flat_map(|back| (back..n).map(move |late| (late - back, late)));
    for (early, late) in pairs.take(most) {
        add_edge(&mut lists, order[early], order[late]);
    }
    lists
}
