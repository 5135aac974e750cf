//! The proved preview, called through its exports, beside the model at the preview's limits, beside the proved engine's
//! exports, and in lists of calls that both make in turn.

#[path = "common/preview.rs"]
mod preview;

use engine_model::beside::Side;
use engine_model::engine::{Engine, MODEL, PREVIEW};
use engine_model::mixed::Both;
use engine_model::proved_engine::{self, PROVED};

const SIDES: Both<Side> = Both {
    engine: Side {
        beside: MODEL,
        begin: proved_engine::begin,
        step: proved_engine::step,
    },
    preview: Side {
        beside: PREVIEW,
        begin: proved_engine::preview::begin,
        step: proved_engine::preview::step,
    },
};

const ENGINES: Both<Engine> = Both {
    engine: PROVED,
    preview: proved_engine::preview::PREVIEW,
};

/// The engine's exports within the preview's limits, else 2.
const OWN: Engine = Engine {
    name: "engine's own call, or 2",
    begin: |memory, p, k| {
        preview::judge(memory, p, k)?;
        (PROVED.begin)(memory, p, k)
    },
    step: |memory, p, k, worker, which| {
        preview::judge(memory, p, k)?;
        (PROVED.step)(memory, p, k, worker, which)
    },
};

#[test]
fn drawn_cases() {
    preview::drawn_cases(&SIDES.preview, 400_000, 6_400);
}

#[test]
fn further_drawn_cases() {
    preview::drawn_cases(&SIDES.preview, 500_000, 6_400);
}

#[test]
fn drawn_cases_of_the_engine() {
    preview::drawn_cases_of_the_engine(&SIDES.preview, 410_000, 3_200);
}

/// The preview's exports beside the engine's.
#[test]
fn the_engine_s_own_call_or_2() {
    let side = Side {
        beside: OWN,
        ..SIDES.preview
    };
    preview::drawn_cases(&side, 420_000, 6_400);
    preview::drawn_cases_of_the_engine(&side, 430_000, 3_200);
    preview::every_word_damaged(&side);
}

#[test]
fn runs_of_one_graph_each() {
    preview::runs_of_one_graph_each(&SIDES.preview, 200);
}

#[test]
fn every_word_damaged() {
    preview::every_word_damaged(&SIDES.preview);
}

#[test]
fn mixed_lists() {
    preview::mixed_lists(&SIDES, 0, 6_400);
}

#[test]
fn further_mixed_lists() {
    preview::mixed_lists(&SIDES, 100_000, 6_400);
}

#[test]
fn mixed_runs_keep_demand_3() {
    preview::mixed_runs_keep_demand_3(&ENGINES, 20_000, 3_200);
}

#[test]
fn mixed_runs_of_one_graph() {
    preview::mixed_runs_of_one_graph(&ENGINES, 200);
}

#[test]
fn the_measured_run() {
    preview::the_measured_run(&SIDES);
}
