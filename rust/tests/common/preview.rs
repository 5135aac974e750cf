//! A preview beside the model and beside an engine, whatever preview and engine they are.

use engine_model::beside::{compare, compare_all, Side, ANSWERS, STEP_ANSWERS};
use engine_model::damages;
use engine_model::engine::{Engine, Limits};
use engine_model::measured;
use engine_model::memory::Memory;
use engine_model::mixed::{self, Both};
use engine_model::model::{Answer, Refusal};
use engine_model::runs::{next_case, next_case_within, runs_of_one_graph_within, Case};

/// "Beyond its limits the preview gives 2"
pub fn judge(memory: &Memory, p: usize, k: usize) -> Answer {
    if Limits::PREVIEW.hold(memory.n(), memory.e(), p, k) {
        Ok(())
    } else {
        Err(Refusal { number: 2, detail: 0 })
    }
}

/// Honest runs with refused calls, damaged words, wrong lengths, bad graphs, other P and K, sizes at and beyond the preview's
/// limits; each answer comes often.
pub fn drawn_cases(preview: &Side, first: u64, count: u64) {
    let cases = (first..first + count).map(|seed| (seed, next_case_within(Limits::PREVIEW, seed)));
    compare_all(cases, preview, &ANSWERS, count as usize / 40);
}

/// The same with the engine's sizes, of which few are within the preview's limits.
pub fn drawn_cases_of_the_engine(preview: &Side, first: u64, count: u64) {
    let cases = (first..first + count).map(|seed| (seed, next_case(seed)));
    compare_all(cases, preview, &ANSWERS, count as usize / 80);
}

pub fn runs_of_one_graph_each(preview: &Side, count: u64) {
    let cases = (0..count).flat_map(|seed| {
        let cases = runs_of_one_graph_within(Limits::PREVIEW, seed, 40, 4);
        cases.into_iter().map(move |case| (seed, case))
    });
    compare_all(cases, preview, &[0, 1, 2, 7, 9, 10, 11], 20);
}

pub fn every_word_damaged(preview: &Side) {
    compare_all((0..).zip(damages::cases()), preview, &STEP_ANSWERS, 20);
}

/// Lists of calls that both make in any turn, damaged words and wrong lengths among them.
pub fn mixed_lists(sides: &Both<Side>, first: u64, count: u64) {
    let lists = (first..first + count).map(|seed| (seed, mixed::drawn(seed)));
    mixed::compare_all(lists, sides, &ANSWERS, count as usize / 40);
}

/// The finished runs of honest lists keep demand 3, at both ends of the preview's limits and beyond them.
pub fn mixed_runs_keep_demand_3(engines: &Both<Engine>, first: u64, count: u64) {
    let mut sizes = Vec::new();
    let lists = (first..first + count).map(mixed::drawn);
    for list in lists.filter(|list| list.case.is_honest()) {
        let finished = mixed::play(engines, &list).unwrap_or_else(|wrong| panic!("{wrong}"));
        let Case { memory, p, k, .. } = &list.case;
        sizes.extend(finished.iter().map(|_| [memory.n(), memory.e(), *p, *k]));
    }
    assert!(sizes.len() >= count as usize / 4, "{} runs are finished", sizes.len());
    let (within, beyond): (Vec<[usize; 4]>, Vec<[usize; 4]>) = sizes
        .into_iter()
        .partition(|&[n, e, p, k]| Limits::PREVIEW.hold(n, e, p, k));
    for (at, ends) in [(0, 128), (0, 512), (1, 4), (2, 8)].into_iter().enumerate() {
        let found = within.iter().map(|size| size[at]);
        assert_eq!((found.clone().min(), found.max()), (Some(ends.0), Some(ends.1)));
    }
    assert!(beyond.len() >= count as usize / 20, "{} are beyond", beyond.len());
}

/// "one task order becomes the other by exchanging neighbours that the graph doesn't order", whoever made which call.
pub fn mixed_runs_of_one_graph(engines: &Both<Engine>, count: u64) {
    let mut pairs = 0;
    for seed in 0..count {
        let lists = mixed::runs_of_one_graph(seed, 24, 4);
        let finished: Vec<_> = lists
            .iter()
            .flat_map(|list| mixed::play(engines, list).unwrap_or_else(|wrong| panic!("seed {seed}: {wrong}")))
            .collect();
        for pair in finished.windows(2) {
            assert_eq!(pair[0].edges, pair[1].edges);
            let joined = pair[0].edges.join(&pair[0].order, &pair[1].order);
            joined.unwrap_or_else(|wrong| panic!("seed {seed}: {wrong}"));
            pairs += 1;
        }
    }
    assert!(pairs >= count, "{pairs} pairs of runs");
}

/// The run that costs are compared on, N, E, P and K at the preview's limits: every call is accepted, by each caller.
pub fn the_measured_run(sides: &Both<Side>) {
    let case = measured::preview_case();
    assert_eq!((case.memory.n(), case.memory.e(), case.p, case.k), (128, 512, 4, 8));
    for side in [&sides.engine, &sides.preview] {
        let counts = compare(&case, side, 0).unwrap_or_else(|parted| panic!("{parted}"));
        // begin and the 3N + E steps
        assert_eq!(counts[0], 1 + 3 * 128 + 512);
        assert_eq!(counts[0], case.calls.len());
    }
}
