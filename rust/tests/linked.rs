//! The proved code, called through its exports, against the model, on the stored trials and on further ones.

use engine_model::cyclic::SHAPES;
use engine_model::exports::Reply;
use engine_model::model::{check, link, Answer, Graph, Lent, Limits, Lookup, Side};
use engine_model::text::{GraphTrial, LookupTrial, Trial};
use engine_model::trials;

/// Where a lookup's part stands in the table on the side named, and how many neighbours it has; 0 and 0 where it is refused.
#[repr(C)]
struct Part {
    place: u32,
    count: u32,
}

extern "C" {
    fn yolluvek_check_graph(
        most_tasks: usize,
        most_edges: usize,
        weights: *const u32,
        weights_len: usize,
        starts: *const u32,
        starts_len: usize,
        preds: *const u32,
        preds_len: usize,
    ) -> Reply;

    fn yolluvek_link_graph(
        most_tasks: usize,
        most_edges: usize,
        weights: *const u32,
        weights_len: usize,
        starts: *const u32,
        starts_len: usize,
        preds: *const u32,
        preds_len: usize,
        succ_starts: *mut u32,
        succ_starts_len: usize,
        succs: *mut u32,
        succs_len: usize,
        degrees: *mut u32,
        degrees_len: usize,
    ) -> Reply;

    fn yolluvek_judge_lookup(
        weights: *const u32,
        weights_len: usize,
        pred_starts: *const u32,
        pred_starts_len: usize,
        preds: *const u32,
        preds_len: usize,
        succ_starts: *const u32,
        succ_starts_len: usize,
        succs: *const u32,
        succs_len: usize,
        side: u32,
        task: u32,
    ) -> Reply;

    fn yolluvek_lookup(
        weights: *const u32,
        weights_len: usize,
        pred_starts: *const u32,
        pred_starts_len: usize,
        preds: *const u32,
        preds_len: usize,
        succ_starts: *const u32,
        succ_starts_len: usize,
        succs: *const u32,
        succs_len: usize,
        side: u32,
        task: u32,
    ) -> Part;
}

fn proved_check(limits: Limits, graph: &Graph) -> Answer {
    let (weights, starts, preds) = (&graph.weights, &graph.preds.starts, &graph.preds.words);
    // each pointer and length is that of a list that lives through the call
    let reply = unsafe {
        yolluvek_check_graph(
            limits.tasks as usize,
            limits.edges as usize,
            weights.as_ptr(),
            weights.len(),
            starts.as_ptr(),
            starts.len(),
            preds.as_ptr(),
            preds.len(),
        )
    };
    reply.into()
}

fn proved_link(limits: Limits, graph: &Graph, lent: &mut Lent) -> Answer {
    let (weights, starts, preds) = (&graph.weights, &graph.preds.starts, &graph.preds.words);
    // as above; the three lists that are written are lent alone
    let reply = unsafe {
        yolluvek_link_graph(
            limits.tasks as usize,
            limits.edges as usize,
            weights.as_ptr(),
            weights.len(),
            starts.as_ptr(),
            starts.len(),
            preds.as_ptr(),
            preds.len(),
            lent.starts.as_mut_ptr(),
            lent.starts.len(),
            lent.succs.as_mut_ptr(),
            lent.succs.len(),
            lent.degrees.as_mut_ptr(),
            lent.degrees.len(),
        )
    };
    reply.into()
}

/// Calls an export that takes a lookup's arguments.
macro_rules! looked_up {
    ($export:ident, $lookup:expr, $side:expr, $task:expr) => {{
        let Lookup { weights, preds, succs } = $lookup;
        // each pointer and length is that of a list that lives through the call
        unsafe {
            $export(
                weights.as_ptr(),
                weights.len(),
                preds.starts.as_ptr(),
                preds.starts.len(),
                preds.words.as_ptr(),
                preds.words.len(),
                succs.starts.as_ptr(),
                succs.starts.len(),
                succs.words.as_ptr(),
                succs.words.len(),
                u32::from($side == Side::Successors),
                $task,
            )
        }
    }};
}

/// Place and count of the model's part, the place being that of its words among those of the table.
fn model_part(lookup: &Lookup, side: Side, task: u32) -> (usize, usize) {
    let part = lookup.neighbours(side, task);
    let words = match side {
        Side::Predecessors => &lookup.preds.words,
        Side::Successors => &lookup.succs.words,
    };
    let place = match lookup.judge(side, task) {
        Ok(()) => (part.as_ptr() as usize - words.as_ptr() as usize) / size_of::<u32>(),
        Err(_) => 0,
    };
    (place, part.len())
}

/// The graph's answers and what the lent lists hold then.
fn compare_graph(trial: &GraphTrial) {
    let GraphTrial { limits, graph, lent } = trial;
    assert_eq!(proved_check(*limits, graph), check(*limits, graph), "{}", line(trial));
    let words = |length: usize| vec![70_000; length];
    let mut proved = Lent {
        starts: words(lent[0]),
        succs: words(lent[1]),
        degrees: words(lent[2]),
    };
    let mut model = proved.clone();
    let answers = (
        proved_link(*limits, graph, &mut proved),
        link(*limits, graph, &mut model),
    );
    assert_eq!(answers.0, answers.1, "{}", line(trial));
    assert!(proved == model, "the lent lists differ: {}", line(trial));
}

fn line(trial: &GraphTrial) -> String {
    Trial::Graph(trial.clone()).case()
}

fn compare_lookup(trial: &LookupTrial) {
    for &(side, task) in &trial.questions {
        let lookup = &trial.lookup;
        let judged: Answer = looked_up!(yolluvek_judge_lookup, lookup, side, task).into();
        assert_eq!(judged, lookup.judge(side, task), "{side:?} {task} {lookup:?}");
        let Part { place, count } = looked_up!(yolluvek_lookup, lookup, side, task);
        let part = (place as usize, count as usize);
        assert_eq!(part, model_part(lookup, side, task), "{side:?} {task} {lookup:?}");
    }
}

fn compare(trials: &[Trial]) {
    for trial in trials {
        match trial {
            Trial::Graph(graph) => compare_graph(graph),
            Trial::Lookup(lookup) => compare_lookup(lookup),
            Trial::Note(_) | Trial::Unreadable(_) => (),
        }
    }
}

#[test]
fn the_stored_trials() {
    compare(&trials::all());
}

#[test]
fn further_trials() {
    (100..110).for_each(|seed| compare(&trials::further(seed, 5_000)));
}

#[test]
fn graphs_with_cycles_of_all_sizes() {
    for (seed, tasks) in (0..).zip([4, 5, 6, 7, 9, 16, 33, 100, 257, 600, 1_023, 1_024]) {
        for (_, shape) in SHAPES {
            for edges in [2, 3, 8] {
                compare_graph(&GraphTrial::of(shape.graph(tasks, edges * tasks, seed)));
            }
        }
    }
}
