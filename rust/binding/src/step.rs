//! Steps: their names, what an accepted one did, and calls as a log keeps them.

use crate::ids::{TaskCopy, TaskId, WorkerId};
use std::fmt;

/// Where a worker is.
#[derive(Clone, Copy, Debug, PartialEq, Eq, Hash)]
pub enum Phase {
    /// It holds no task: Release and Fetch suit.
    Idle,
    /// It has fetched a task: Start suits.
    Fetched,
    /// It is running the task: Complete suits.
    Running,
}

impl Phase {
    /// The phase with this number.
    pub(crate) const fn of(number: u32) -> Option<Phase> {
        match number {
            0 => Some(Phase::Idle),
            1 => Some(Phase::Fetched),
            2 => Some(Phase::Running),
            _ => None,
        }
    }

    /// 0 idle, 1 fetched, 2 running.
    pub const fn number(self) -> u32 {
        match self {
            Phase::Idle => 0,
            Phase::Fetched => 1,
            Phase::Running => 2,
        }
    }
}

/// Prints "idle", "fetched" or "running".
impl fmt::Display for Phase {
    fn fmt(&self, to: &mut fmt::Formatter<'_>) -> fmt::Result {
        to.pad(match self {
            Phase::Idle => "idle",
            Phase::Fetched => "fetched",
            Phase::Running => "running",
        })
    }
}

/// The four steps that a worker can take.
#[derive(Clone, Copy, Debug, PartialEq, Eq, Hash)]
pub enum Step {
    /// Take a task that waits: [`Job::fetch`](crate::Job::fetch).
    Fetch,
    /// Start the task taken: [`Job::start`](crate::Job::start).
    Start,
    /// The task is done: [`Job::complete`](crate::Job::complete).
    Complete,
    /// Let a successor wait for one task less: [`Job::release`](crate::Job::release).
    Release,
}

impl Step {
    /// All four, in the order of a task's life.
    pub const ALL: [Step; 4] = [Step::Fetch, Step::Start, Step::Complete, Step::Release];
}

/// Prints "Fetch", "Start", "Complete" or "Release".
impl fmt::Display for Step {
    fn fmt(&self, to: &mut fmt::Formatter<'_>) -> fmt::Result {
        to.pad(match self {
            Step::Fetch => "Fetch",
            Step::Start => "Start",
            Step::Complete => "Complete",
            Step::Release => "Release",
        })
    }
}

/// What an accepted Release did with the next successor of the oldest task in the worker's buffer.
#[derive(Clone, Copy, Debug, PartialEq, Eq, Hash)]
pub enum Released {
    /// The successor still waits for other predecessors.
    DegreeLeft {
        /// For how many.
        degree: u32,
    },
    /// The successor waits for nothing any more, and was placed into a ring.
    Placed {
        /// The successor.
        task: TaskId,
        /// The worker that owns the ring: the one that can fetch the task.
        owner: WorkerId,
    },
}

/// What an accepted Release of a weak job did: it made a copy of the next successor, and placed it into a ring.
#[derive(Clone, Copy, Debug, PartialEq, Eq, Hash)]
pub struct Placed {
    /// The successor, with the completed task.
    pub copy: TaskCopy,
    /// The worker that owns the ring: the one that the successor is fixed to.
    pub owner: WorkerId,
}

/// What an accepted step did. In a weak job it is about copies: `Outcome<TaskCopy, Placed>`.
#[derive(Clone, Copy, Debug, PartialEq, Eq, Hash)]
pub enum Outcome<I = TaskId, R = Released> {
    /// Fetch: the worker holds this task or copy.
    Fetched(I),
    /// Start: the worker runs it.
    Started,
    /// Complete: it is recorded.
    Completed,
    /// Release: what became of the successor.
    Released(R),
}

/// What the next Release of a worker is about, as [`Job::next_release`](crate::Job::next_release) foresees it.
#[derive(Clone, Copy, Debug, PartialEq, Eq, Hash)]
pub struct NextRelease {
    /// The oldest completed task in the worker's buffer.
    pub task: TaskId,
    /// Its successor whose turn it is.
    pub successor: TaskId,
    /// How many tasks the successor waits for, before the Release; with 1 the Release places it, or is refused with 11. In
    /// a weak job, how many of its copies aren't completed; each Release there places one, or is refused with 11.
    pub degree: u32,
    /// The weight of the successor.
    pub weight: u32,
}

/// A call of a run, as [`Job::log`](crate::Job::log) keeps it and [`Job::replay`](crate::Job::replay) makes it again.
#[derive(Clone, Copy, Debug, PartialEq, Eq, Hash)]
pub enum Call {
    /// Begin.
    Begin,
    /// This step by this worker.
    Step(Step, WorkerId),
}
