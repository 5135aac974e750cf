//! A call's answer, in the words that the panel shows.

use crate::kind::Kind;
use yolluvek::{ItemOf, JobOf, Outcome, Refusal, ReleasedOf, Step, TaskId, WorkerId};

/// What an accepted step of a job did.
pub type OutcomeOf<C> = Outcome<ItemOf<C>, ReleasedOf<C>>;

/// A placement that was asked for beforehand.
#[derive(Clone, Copy, Debug, PartialEq, Eq)]
pub struct Foreseen {
    /// The answer given.
    pub guess: WorkerId,
    /// The lane that the task went to.
    pub owner: WorkerId,
}

/// What a call answered, and how many words it changed.
#[derive(Clone, Debug, PartialEq, Eq)]
pub struct Answer {
    /// The step.
    pub step: Step,
    /// The lane that took it.
    pub lane: WorkerId,
    /// What was done, in words, or the refusal.
    pub told: Result<Vec<String>, Refusal>,
    /// How many words differ from before the call.
    pub differing: usize,
    /// Of how many.
    pub words: usize,
    /// Whether the placement was foreseen, where that was asked.
    pub foreseen: Option<Foreseen>,
}

impl Answer {
    /// The answer of a step that led from one job to the other.
    pub fn of<C: Kind>(
        before: &JobOf<C>,
        after: &JobOf<C>,
        step: Step,
        lane: WorkerId,
        told: &Result<OutcomeOf<C>, Refusal>,
    ) -> Answer {
        Answer {
            step,
            lane,
            told: told.clone().map(|outcome| done(before, after, lane, outcome)),
            differing: after.words_differing(before),
            words: after.words(),
            foreseen: None,
        }
    }

    /// "Release by lane 12: REFUSED 11, detail 26".
    pub fn title(&self) -> String {
        let (step, lane) = (self.step, self.lane);
        match &self.told {
            Ok(_) => format!("{step} by lane {lane}: accepted"),
            Err(refusal) => {
                let (number, detail) = (refusal.number(), refusal.detail());
                format!("{step} by lane {lane}: REFUSED {number}, detail {detail}")
            }
        }
    }

    /// "0 of 1234 words differ from before the call".
    pub fn difference(&self) -> String {
        let (differing, words) = (self.differing, self.words);
        format!("{differing} of {words} words differ from before the call")
    }
}

fn done<C: Kind>(before: &JobOf<C>, after: &JobOf<C>, lane: WorkerId, outcome: OutcomeOf<C>) -> Vec<String> {
    match outcome {
        Outcome::Fetched(_) => vec![C::fetched(after, lane)],
        Outcome::Started => {
            let item = C::ITEM;
            let held = after.held(lane);
            let held = held.map_or(format!("its {item}"), |held| format!("{item} {held}"));
            vec![format!("Lane {lane} runs {held}.")]
        }
        Outcome::Completed => C::completed(before, after, lane),
        Outcome::Released(released) => C::released(before, lane, released),
    }
}

pub(crate) fn weighed<C: Kind>(job: &JobOf<C>, task: TaskId) -> String {
    format!("{task} (weight {})", job.weight(task).unwrap_or(0))
}

/// What a completed task with these successors has to release.
pub(crate) fn to_release(successors: Option<&[TaskId]>) -> String {
    match successors.map_or(0, <[TaskId]>::len) {
        0 => "It has no successors.".to_owned(),
        1 => "It has 1 successor to release.".to_owned(),
        successors => format!("It has {successors} successors to release."),
    }
}

pub(crate) fn left<C: Kind>(before: &JobOf<C>, lane: WorkerId, degree: u32) -> String {
    let task = before
        .next_release(lane)
        .map_or("The successor".to_owned(), |next| format!("Task {}", next.successor));
    format!("{task} still waits for {}. Nothing is placed.", tasks(degree))
}

/// "1 task", "2 tasks".
pub fn tasks(count: u32) -> String {
    match count {
        1 => "1 task".to_owned(),
        _ => format!("{count} tasks"),
    }
}

/// Why the engine took this owner, as `docs/RULE.md` has it: the least load, ties, full rings that were passed.
pub(crate) fn why<C: Kind>(before: &JobOf<C>, lane: WorkerId, owner: WorkerId) -> String {
    let Some((target, load, tie)) = least(before) else {
        return String::new();
    };
    let tie = if tie { ", the lowest number of a tie" } else { "" };
    let least = format!("The least load was {load}, of lane {target}{tie}.");
    match passed(before, target, owner).as_slice() {
        [] => least,
        [one] => format!("{least} Full, filled by {lane}: the ring of lane {one}."),
        many => format!(
            "{least} Full, filled by {lane}: the rings of lanes {}.",
            many.join(", ")
        ),
    }
}

/// The worker with the least load, that load, and whether others have it too.
fn least<C: Kind>(job: &JobOf<C>) -> Option<(WorkerId, i64, bool)> {
    let loads: Vec<(i64, WorkerId)> = job.worker_ids().filter_map(|id| Some((job.load(id)?, id))).collect();
    let &(load, target) = loads.iter().min()?;
    let tie = loads.iter().filter(|&&(other, _)| other == load).count() > 1;
    Some((target, load, tie))
}

/// The owners from the target up to the one whose ring was used.
fn passed<C: Kind>(job: &JobOf<C>, target: WorkerId, owner: WorkerId) -> Vec<String> {
    let ids: Vec<WorkerId> = job.worker_ids().collect();
    let from = ids.iter().position(|&id| id == target).unwrap_or(0);
    let turn = ids.iter().cycle().skip(from).take(ids.len());
    turn.take_while(|&&id| id != owner).map(WorkerId::to_string).collect()
}
