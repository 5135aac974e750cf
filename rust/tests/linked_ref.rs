//! The calls in document 01's form, the rows as records, beside the model: the five calls one after the other on each stored
//! graph, drawn lists of calls on honest and damaged memories, and every word damaged.

use engine_model::beside::{compare_all, Side, ANSWERS, STEP_ANSWERS};
use engine_model::damages;
use engine_model::engine::MODEL;
use engine_model::memory::{Memory, Step};
use engine_model::model::Graph;
use engine_model::ref_engine;
use engine_model::runs::{next_case, Call, Case};
use engine_model::text::Trial;
use engine_model::trials;

const RECORDS: Side = Side {
    beside: MODEL,
    begin: ref_engine::begin,
    step: ref_engine::step,
};

/// Begin, then Fetch, Start, Complete and Release by worker 0.
fn round(graph: &Graph, p: usize, k: usize) -> Case {
    let (starts, words) = (graph.preds.starts.clone(), graph.preds.words.clone());
    let memory = Memory::sized(graph.weights.clone(), starts, words, p, k, u32::MAX);
    let steps = [Step::Fetch, Step::Start, Step::Complete, Step::Release];
    let by_worker = |step| Call::Step { p, k, worker: 0, step };
    let calls = [Call::Begin { p, k }].into_iter().chain(steps.map(by_worker)).collect();
    Case { memory, p, k, calls }
}

#[test]
fn a_round_of_every_stored_graph() {
    let graphs = trials::all().into_iter().filter_map(|trial| match trial {
        Trial::Graph(trial) => Some(trial.graph),
        _ => None,
    });
    let rounds = graphs.flat_map(|graph| [(1, 2), (1, 64), (2, 2), (3, 64)].map(|(p, k)| round(&graph, p, k)));
    compare_all((0..).zip(rounds), &RECORDS, &[0, 1, 2, 3, 4, 5, 6], 100);
}

#[test]
fn drawn_cases() {
    let cases = (200_000..206_400).map(|seed| (seed, next_case(seed)));
    compare_all(cases, &RECORDS, &ANSWERS, 200);
}

#[test]
fn every_word_damaged() {
    compare_all((0..).zip(damages::cases()), &RECORDS, &STEP_ANSWERS, 20);
}
