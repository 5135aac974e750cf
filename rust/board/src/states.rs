//! Every state that calls can reach, with the engine's answer to every step in it.

use crate::answer::Answer;
use std::collections::HashMap;
use std::fmt;
use yolluvek::{Job, Outcome, Refusal, Step, WorkerId};

/// The most states that are looked at.
pub const MAX_STATES: usize = 3_000;
/// The steps, in the order in which they are answered for each lane.
pub const STEPS: [Step; 4] = [Step::Fetch, Step::Start, Step::Complete, Step::Release];
/// Lanes that are answered for, those that don't exist among them.
pub const LANES: u32 = 16;

/// More than [`MAX_STATES`].
#[derive(Clone, Debug, PartialEq, Eq)]
pub struct TooMany {
    workers: usize,
    slots: usize,
}

impl fmt::Display for TooMany {
    fn fmt(&self, to: &mut fmt::Formatter<'_>) -> fmt::Result {
        let TooMany { workers, slots } = self;
        write!(
            to,
            "with P {workers} and K {slots} there are more than {MAX_STATES} states, too many for a page: choose a \
             smaller graph or a smaller P"
        )
    }
}

/// A step in a state: what it answered, and the state after it.
#[derive(Clone, Debug)]
pub struct Move {
    /// What the engine said.
    pub told: Result<Outcome, Refusal>,
    /// The same in words.
    pub answer: Answer,
    /// The place of the state after it; its own if it was refused.
    pub next: usize,
}

/// A state and its moves: of each of [`LANES`] lanes each of [`STEPS`].
#[derive(Clone, Debug)]
pub struct State {
    /// The state.
    pub job: Job,
    /// Its moves.
    pub moves: Vec<Move>,
}

/// All states from this one on, which is the first.
///
/// # Errors
///
/// Where there are more than [`MAX_STATES`].
pub fn reached(job: &Job) -> Result<Vec<State>, TooMany> {
    let mut places = HashMap::from([(job.clone(), 0)]);
    let mut jobs = vec![job.clone()];
    let mut states = Vec::new();
    while let Some(job) = jobs.get(states.len()).cloned() {
        let mut moves = Vec::new();
        for (lane, step) in (0..LANES).flat_map(|lane| STEPS.map(|step| (WorkerId::new(lane), step))) {
            let mut after = job.clone();
            let told = after.step(step, lane);
            let answer = Answer::of(&job, &after, step, lane, &told);
            let next = *places.entry(after).or_insert_with_key(|after| {
                jobs.push(after.clone());
                jobs.len() - 1
            });
            moves.push(Move { told, answer, next });
        }
        if jobs.len() > MAX_STATES {
            let (workers, slots) = (job.workers(), job.slots());
            return Err(TooMany { workers, slots });
        }
        states.push(State { job, moves });
    }
    Ok(states)
}
