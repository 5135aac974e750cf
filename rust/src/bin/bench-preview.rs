//! Makes one run with the proved engine and the same with the proved preview, N, E, P and K at the preview's limits, for the script
//! `bench`.
//! It prints nothing, and fails unless both answer the same and leave the same words.

use engine_model::engine::Limits;
use engine_model::measured::{accepted_steps, preview_memory};
use engine_model::plain_engine::Lent;
use engine_model::proved_engine::{self, preview};

fn main() {
    let Limits { workers, slots, .. } = Limits::PREVIEW;
    let mut by_engine = preview_memory();
    let mut by_preview = by_engine.clone();
    let steps = accepted_steps(by_engine.clone(), workers, slots);

    assert_eq!(
        proved_engine::begin(&mut Lent::of(&mut by_engine), workers, slots),
        Ok(())
    );
    assert_eq!(preview::begin(&mut Lent::of(&mut by_preview), workers, slots), Ok(()));
    assert_eq!(by_engine, by_preview);
    for (worker, step) in steps {
        let outcome = proved_engine::step(&mut Lent::of(&mut by_engine), workers, slots, worker, step);
        assert!(outcome.is_ok());
        let other = preview::step(&mut Lent::of(&mut by_preview), workers, slots, worker, step);
        assert_eq!(other, outcome);
    }
    assert_eq!(by_engine, by_preview);
}
