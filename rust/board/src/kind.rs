//! What a lesson on a plain job and one on a weak job tell differently.

use crate::answer;
use std::fmt::Debug;
use yolluvek::{
    Caller, Engine, Job, JobOf, Placed, Refusal, Released, ReleasedOf, Side, TaskId, WeakEngine, WeakJob, Windows,
    WorkerId,
};

/// The kind of job that a lesson is on.
pub trait Kind: Caller + Clone + Debug {
    /// What is in a lane's hand.
    const ITEM: &'static str;
    /// What a Release does, for the assign dialog.
    const RELEASE: [&'static str; 2];
    /// The rule of a placement, for the question before it.
    const RULE: [&'static str; 3];

    /// The task that a Release placed or made a copy of, and the lane that got it.
    fn placed(released: ReleasedOf<Self>) -> Option<(TaskId, WorkerId)>;
    /// What a Release did, in words.
    fn released(before: &JobOf<Self>, lane: WorkerId, released: ReleasedOf<Self>) -> Vec<String>;
    /// What a Complete did, in words.
    fn completed(before: &JobOf<Self>, after: &JobOf<Self>, lane: WorkerId) -> Vec<String>;
    /// What a Fetch did to the load.
    fn fetched(job: &JobOf<Self>, lane: WorkerId) -> String;
    /// What stands behind the next successor of a lane's completed task.
    fn waits(job: &JobOf<Self>, successor: TaskId, degree: u32) -> String;
    /// The entries of the record, as "2 by 1".
    fn record(job: &JobOf<Self>) -> Vec<String>;
    /// The load windows, where such a job has them.
    fn windows(job: &JobOf<Self>, window: usize) -> Option<Result<Windows, Refusal>>;
}

impl Kind for Engine {
    const ITEM: &'static str = "task";
    const RELEASE: [&'static str; 2] = [
        "It is that lane's Release: of the oldest of its completed tasks, the next",
        "successor waits for one task less, and is placed when it waits for none.",
    ];
    const RULE: [&'static str; 3] = [
        "The lane with the least load, the lowest number of a tie; if its ring that",
        "this lane fills is full, the next lane whose ring isn't.",
        "What waits for a lane counts in its load, and what is in its hand.",
    ];

    fn placed(released: Released) -> Option<(TaskId, WorkerId)> {
        match released {
            Released::Placed { task, owner } => Some((task, owner)),
            Released::DegreeLeft { .. } => None,
        }
    }

    fn released(before: &Job, lane: WorkerId, released: Released) -> Vec<String> {
        match released {
            Released::DegreeLeft { degree } => vec![answer::left(before, lane, degree)],
            Released::Placed { task, owner } => {
                let placed = format!("Task {} waits for lane {owner} now.", answer::weighed(before, task));
                vec![placed, answer::why(before, lane, owner)]
            }
        }
    }

    fn completed(before: &Job, after: &Job, lane: WorkerId) -> Vec<String> {
        let task = before.held(lane);
        let release = answer::to_release(task.and_then(|task| after.lookup(Side::Successors, task).ok()));
        let recorded = task.map_or("Its task".to_owned(), |task| format!("Task {task}"));
        vec![
            format!("{recorded} is recorded. {release}"),
            "Its weight has left the lane's load.".to_owned(),
        ]
    }

    fn fetched(job: &Job, lane: WorkerId) -> String {
        let task = job.held(lane).map_or(String::new(), |task| answer::weighed(job, task));
        format!("Lane {lane} has fetched task {task}. Its weight stays in the lane's load.")
    }

    fn waits(_job: &Job, _successor: TaskId, degree: u32) -> String {
        format!("waits for {}", answer::tasks(degree))
    }

    fn record(job: &Job) -> Vec<String> {
        let entries = job.record().iter();
        entries
            .map(|entry| format!("{} by {}", entry.task, entry.worker))
            .collect()
    }

    fn windows(job: &Job, window: usize) -> Option<Result<Windows, Refusal>> {
        Some(job.windows(window))
    }
}

impl Kind for WeakEngine {
    const ITEM: &'static str = "copy";
    const RELEASE: [&'static str; 2] = [
        "It is that lane's Release: of the oldest of its completed tasks and the next",
        "successor a copy is made and placed.",
    ];
    const RULE: [&'static str; 3] = [
        "The first copy goes to the lane with the least load, the lowest number of a",
        "tie, past full rings that this lane fills. Later copies follow the first.",
        "A task counts in its lane's load from the first copy to the last.",
    ];

    fn placed(Placed { copy, owner }: Placed) -> Option<(TaskId, WorkerId)> {
        Some((copy.task, owner))
    }

    fn released(before: &WeakJob, lane: WorkerId, Placed { copy, owner }: Placed) -> Vec<String> {
        let task = copy.task;
        let placed = format!("Copy {copy} waits for lane {owner} now.");
        let why = match before.fixed(task) {
            Some(_) => format!("Task {task} is fixed to lane {owner}: the copy follows the first one."),
            None => {
                let weight = answer::weighed(before, task);
                let why = answer::why(before, lane, owner);
                format!("It is the first copy of task {weight}, which is fixed to lane {owner} now. {why}")
            }
        };
        vec![placed, why]
    }

    fn completed(before: &WeakJob, after: &WeakJob, lane: WorkerId) -> Vec<String> {
        let Some(copy) = before.held(lane) else {
            return vec!["Its copy is recorded.".to_owned()];
        };
        let task = copy.task;
        let left = after.degree(task).unwrap_or(0);
        match left {
            0 => {
                let release = answer::to_release(after.lookup(Side::Successors, task).ok());
                vec![
                    format!("Copy {copy} is recorded, the last one: task {task} is complete. {release}"),
                    "Its weight has left the lane's load.".to_owned(),
                ]
            }
            _ => vec![format!(
                "Copy {copy} is recorded. {} left of task {task}, whose weight stays in the lane's load.",
                copies(left)
            )],
        }
    }

    fn fetched(job: &WeakJob, lane: WorkerId) -> String {
        let copy = job.held(lane).map_or(String::new(), |copy| copy.to_string());
        format!("Lane {lane} has fetched copy {copy}. The lane's load stays.")
    }

    fn waits(job: &WeakJob, successor: TaskId, _degree: u32) -> String {
        match job.fixed(successor) {
            Some(lane) => format!("fixed to lane {lane}"),
            None => "its first copy".to_owned(),
        }
    }

    fn record(job: &WeakJob) -> Vec<String> {
        job.record()
            .map(|entry| format!("{} by {}", entry.copy, entry.worker))
            .collect()
    }

    fn windows(_job: &WeakJob, _window: usize) -> Option<Result<Windows, Refusal>> {
        None
    }
}

/// "1 copy is", "2 copies are".
fn copies(count: u32) -> String {
    match count {
        1 => "1 copy is".to_owned(),
        _ => format!("{count} copies are"),
    }
}
