//! The plain preview beside the model at the preview's limits, and in lists of calls that it and the plain engine make in turn.

#[path = "common/preview.rs"]
mod preview;

use engine_model::beside::Side;
use engine_model::engine::{Engine, MODEL, PREVIEW};
use engine_model::mixed::Both;
use engine_model::{plain_engine, plain_preview};

const SIDES: Both<Side> = Both {
    engine: Side {
        beside: MODEL,
        begin: plain_engine::begin,
        step: plain_engine::step,
    },
    preview: Side {
        beside: PREVIEW,
        begin: plain_preview::begin,
        step: plain_preview::step,
    },
};

const ENGINES: Both<Engine> = Both {
    engine: plain_engine::PLAIN,
    preview: plain_preview::PLAIN,
};

/// The model's engine within the preview's limits, else 2.
const OWN: Engine = Engine {
    name: "engine's own call, or 2",
    begin: |memory, p, k| {
        preview::judge(memory, p, k)?;
        (MODEL.begin)(memory, p, k)
    },
    step: |memory, p, k, worker, which| {
        preview::judge(memory, p, k)?;
        (MODEL.step)(memory, p, k, worker, which)
    },
};

#[test]
fn drawn_cases() {
    preview::drawn_cases(&SIDES.preview, 300_000, 3_200);
}

#[test]
fn drawn_cases_of_the_engine() {
    preview::drawn_cases_of_the_engine(&SIDES.preview, 310_000, 800);
}

/// The preview beside the model's engine.
#[test]
fn the_engine_s_own_call_or_2() {
    let side = Side {
        beside: OWN,
        ..SIDES.preview
    };
    preview::drawn_cases(&side, 320_000, 1_600);
    preview::drawn_cases_of_the_engine(&side, 330_000, 800);
}

#[test]
fn runs_of_one_graph_each() {
    preview::runs_of_one_graph_each(&SIDES.preview, 200);
}

#[test]
fn every_word_damaged() {
    preview::every_word_damaged(&SIDES.preview);
}

#[test]
fn mixed_lists() {
    preview::mixed_lists(&SIDES, 0, 2_400);
}

#[test]
fn mixed_runs_keep_demand_3() {
    preview::mixed_runs_keep_demand_3(&ENGINES, 10_000, 1_600);
}

#[test]
fn mixed_runs_of_one_graph() {
    preview::mixed_runs_of_one_graph(&ENGINES, 60);
}

#[test]
fn the_measured_run() {
    preview::the_measured_run(&SIDES);
}
