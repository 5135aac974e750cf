//! Runs of random graphs.

use super::{any_fill, any_order, noted, script, whole_run, SLOTS, UNTIL_IDLE, WORKERS};
use crate::draw::Draw;
use crate::engine::{MAX_SLOTS, MAX_WORKERS};
use crate::model::Graph;
use crate::runs::graphs;
use crate::script::{Command, Line, Order, Script, Sizes, Told};

/// Workers and slots, mostly with room for all roots.
fn any_sizes(draw: &mut Draw, graph: &Graph) -> Sizes {
    let (mut p, mut k) = (draw.pick(&WORKERS), draw.pick(&SLOTS));
    let roots = graph.preds.starts.windows(2).filter(|pair| pair[0] == pair[1]).count();
    while roots > p * k && draw.below(8) > 0 {
        p = (p + 1).min(MAX_WORKERS);
        k = (k + 1).min(MAX_SLOTS);
    }
    Sizes { p, k }
}

/// Whole runs of graphs with up to 60 tasks.
pub fn runs() -> Vec<Line> {
    let mut draw = Draw::new(3);
    let scripts = (0..60).map(|_| {
        let graph = graphs::any(&mut draw, 60);
        let sizes = any_sizes(&mut draw, &graph);
        let order = any_order(&mut draw, sizes.p);
        script(
            graph,
            sizes,
            any_fill(&mut draw),
            whole_run(sizes, order, Told::Accepted),
        )
    });
    noted("random graphs", scripts.collect::<Vec<_>>())
}

/// Runs of smaller graphs, with some of the workers idle for a while and every step tried on the way.
pub fn with_refusals() -> Vec<Line> {
    let mut draw = Draw::new(4);
    let scripts = (0..40).map(|_| with_pauses(&mut draw));
    noted("random graphs, refused steps on the way", scripts.collect::<Vec<_>>())
}

fn with_pauses(draw: &mut Draw) -> Script {
    let graph = graphs::any(draw, 16);
    let sizes = Sizes {
        p: draw.pick(&[1, 2, 3, 5]),
        k: draw.pick(&[2, 2, 3, 4]),
    };
    let mut commands = vec![Command::Begin(sizes)];
    for _ in 0..draw.between(1, 3) {
        // one worker alone, so that it fills its rings
        let alone = Order {
            first: draw.below(sizes.p) as u32,
            stride: 0,
        };
        let steps = draw.between(1, 20) as u32;
        commands.push(Command::Turns(sizes, alone, steps, Told::All));
        commands.push(Command::Every(sizes, any_order(draw, sizes.p)));
    }
    let order = any_order(draw, sizes.p);
    commands.push(Command::Turns(sizes, order, UNTIL_IDLE, Told::Accepted));
    commands.push(Command::Lists);
    commands.push(Command::Every(sizes, order));
    script(graph, sizes, any_fill(draw), commands)
}
