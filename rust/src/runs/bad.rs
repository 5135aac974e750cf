//! Lists of wrong lengths, graphs that begin refuses, and numbers at and beyond the limits.

use super::honest::Recorder;
use super::{any_sizes, graphs as shapes, lent_for, Call, Case};
use crate::draw::Draw;
use crate::engine::Limits;
use crate::memory::{List, Lists, Step};
use crate::trials::damage::several;

/// A run in which lists are lent longer or shorter for a while.
pub fn lengths<M: Lists>(draw: &mut Draw, limits: Limits) -> Case<M> {
    let graph = shapes::any_within(draw, limits, 20);
    let (p, k) = any_sizes(draw, limits, &graph);
    let mut recorder = Recorder::<M>::new(limits, lent_for(draw, graph, p, k), p, k);
    for _ in 0..draw.between(1, 8) {
        recorder.begin();
        recorder.every_step(draw, 16);
        let lists: Vec<List> = (0..draw.pick(&[1, 1, 1, 2, 5])).map(|_| draw.pick(M::LISTS)).collect();
        for list in lists {
            let right = recorder.memory.length(list);
            let length = draw.pick(&[0, right.saturating_sub(1), right + 1, right + 1, right + 7]);
            let word = draw.pick(&[0, 1, u32::MAX]);
            recorder.call(Call::Lend { list, length, word });
            recorder.begin();
            recorder.every_step(draw, 8);
            if draw.below(4) != 0 {
                let length = right;
                recorder.call(Call::Lend { list, length, word });
            }
        }
    }
    recorder.case()
}

/// Graphs that begin refuses; after each refusal steps on what the lists held.
pub fn graphs<M: Lists>(draw: &mut Draw, limits: Limits) -> Case<M> {
    match draw.below(3) {
        0 => several_defects(draw, limits),
        1 => too_many_roots(draw, limits),
        _ => one_defect_after_another(draw, limits),
    }
}

/// A graph with several defects from the start.
fn several_defects<M: Lists>(draw: &mut Draw, limits: Limits) -> Case<M> {
    let trial = several(draw);
    let (p, k) = any_sizes(draw, limits, &trial.graph);
    let mut memory: M = lent_for(draw, trial.graph, p, k);
    let [succ_starts, succs, degrees] = trial.lent;
    if draw.below(4) == 0 {
        memory.lend(List::SuccStarts, succ_starts, 0);
        memory.lend(List::Succs, succs, 0);
        memory.lend(List::Degrees, degrees, 0);
    }
    let mut recorder = Recorder::<M>::new(limits, memory, p, k);
    recorder.begin();
    recorder.every_step(draw, 16);
    recorder.case()
}

/// Rings that the roots fill, or that lack a slot or two: "The roots' limit becomes P·K".
fn too_many_roots<M: Lists>(draw: &mut Draw, limits: Limits) -> Case<M> {
    let (p, k) = (draw.between(1, 4), draw.between(2, 5));
    let roots = p * k + draw.below(3);
    let mut lists = vec![Vec::new(); roots + draw.below(3)];
    for list in &mut lists[roots..] {
        *list = vec![draw.below(roots) as u32];
    }
    let graph = shapes::weighed(draw, &lists);
    let mut recorder = Recorder::<M>::new(limits, lent_for(draw, graph, p, k), p, k);
    recorder.begin();
    recorder.every_step(draw, 16);
    recorder.case()
}

/// A run whose predecessor table is damaged and mended again, with a begin in between.
fn one_defect_after_another<M: Lists>(draw: &mut Draw, limits: Limits) -> Case<M> {
    let graph = shapes::any_within(draw, limits, 12);
    let (p, k) = any_sizes(draw, limits, &graph);
    let mut recorder = Recorder::<M>::new(limits, lent_for(draw, graph, p, k), p, k);
    recorder.begin();
    for _ in 0..16 {
        recorder.every_step(draw, 8);
        let Some((list, place, word)) = defect(draw, &recorder.memory) else {
            continue;
        };
        let old = recorder.write(list, place, word);
        recorder.begin();
        if let Some(word) = old {
            recorder.write(list, place, word);
        }
    }
    recorder.case()
}

/// Another predecessor, which may be there twice, close a cycle or be no task; or another start; or a heavy weight.
fn defect<M: Lists>(draw: &mut Draw, memory: &M) -> Option<(List, usize, u32)> {
    let (n, e) = (memory.n(), memory.e());
    if n == 0 || e == 0 {
        return None;
    }
    let task = draw.below(n) as u32;
    let start = draw.below(e + 2) as u32;
    Some(match draw.below(8) {
        0 => (
            List::PredStarts,
            draw.below(n + 1),
            draw.pick(&[0, start, start, u32::MAX]),
        ),
        1 => (List::Weights, task as usize, draw.pick(&[65_535, 65_536, u32::MAX])),
        2 => (
            List::Preds,
            draw.below(e),
            draw.pick(&[n as u32, n as u32 + 1, u32::MAX]),
        ),
        3 | 4 => {
            let place = draw.below(e);
            (List::Preds, place, memory.preds()[place.saturating_sub(1)])
        }
        _ => (List::Preds, draw.below(e), task),
    })
}

/// N, E, P and K at their limits and beyond, roots and weights too; then with a list of another length.
pub fn limits<M: Lists>(draw: &mut Draw, limits: Limits) -> Case<M> {
    let Limits { workers, slots, .. } = limits;
    let (p, k): (usize, usize) = draw.pick(&[
        (1, 2),
        (workers, slots),
        (1, slots),
        (workers, 2),
        (0, 2),
        (workers + 1, 2),
        (1, 1),
        (1, 0),
        (workers, slots + 1),
        (2, 3),
    ]);
    let (tasks, edges) = (limits.tasks(), limits.edges());
    let room = (p * k.saturating_sub(1)).min(tasks);
    let n = draw.pick(&[room, room + 1, room.saturating_sub(1), tasks, tasks + 1, 3]);
    let weight = draw.pick(&[0, 65_535, 65_536, u32::MAX]);
    let e = if draw.below(4) == 0 {
        draw.between(edges, edges + 1)
    } else {
        0
    };
    let mut starts = vec![0; n + 1];
    starts[n] = e as u32;
    let fill = draw.pick(&[0, u32::MAX]);
    let mut weights = vec![0; n];
    if let Some(last) = weights.last_mut() {
        *last = weight;
    }
    let memory = M::sized(weights, starts, vec![0; e], p, k, fill);
    let mut recorder = Recorder::<M>::new(limits, memory, p, k);
    recorder.begin();
    // with P 0 there is no worker below P
    recorder.step(0, Step::Fetch);
    recorder.every_step(draw, 16);
    // 2 comes before 1
    let list = draw.pick(M::LISTS);
    let right = recorder.memory.length(list);
    let length = draw.pick(&[0, right.saturating_sub(1), right + 1]);
    recorder.call(Call::Lend {
        list,
        length,
        word: fill,
    });
    recorder.begin();
    recorder.step(0, Step::Fetch);
    recorder.every_step(draw, 4);
    recorder.case()
}
