//! Task and worker numbers, and copies.

use std::fmt;

/// The number of a task, from 0.
///
/// Task and worker numbers are types of their own, so that one can't stand where the other belongs:
///
/// ```compile_fail,E0308
/// # let mut job = yolluvek::Job::from_text(b"0\n0 0 0\n1 0 0\n", 1, 2).unwrap();
/// job.fetch(yolluvek::TaskId::new(0));
/// ```
#[derive(Clone, Copy, Debug, PartialEq, Eq, PartialOrd, Ord, Hash)]
#[repr(transparent)]
pub struct TaskId(u32);

/// The number of a worker, from 0.
#[derive(Clone, Copy, Debug, PartialEq, Eq, PartialOrd, Ord, Hash)]
#[repr(transparent)]
pub struct WorkerId(u32);

/// A copy of a task in a weak job: the task, and the finished predecessor that it is worked on with.
///
/// Prints "3·2" for task 3 with predecessor 2, and "3" for a root's copy.
#[derive(Clone, Copy, Debug, PartialEq, Eq, PartialOrd, Ord, Hash)]
pub struct TaskCopy {
    /// The task.
    pub task: TaskId,
    /// The predecessor; None in the one copy of a root.
    pub predecessor: Option<TaskId>,
}

/// The word for "no task".
pub(crate) const NIL: u32 = 65_535;

impl TaskCopy {
    /// The copy with this word for its predecessor.
    pub(crate) fn of(task: TaskId, predecessor: u32) -> TaskCopy {
        TaskCopy {
            task,
            predecessor: (predecessor != NIL).then_some(TaskId::new(predecessor)),
        }
    }
}

impl fmt::Display for TaskCopy {
    fn fmt(&self, to: &mut fmt::Formatter<'_>) -> fmt::Result {
        match self.predecessor {
            Some(predecessor) => to.pad(&format!("{}·{predecessor}", self.task)),
            None => self.task.fmt(to),
        }
    }
}

impl TaskId {
    /// The task with this number; whether there is one is judged by the calls.
    pub const fn new(number: u32) -> TaskId {
        TaskId(number)
    }

    /// The task's number.
    pub const fn number(self) -> u32 {
        self.0
    }
}

impl WorkerId {
    /// The worker with this number; whether there is one is judged by the calls.
    pub const fn new(number: u32) -> WorkerId {
        WorkerId(number)
    }

    /// The worker's number.
    pub const fn number(self) -> u32 {
        self.0
    }
}

impl From<u32> for TaskId {
    fn from(number: u32) -> TaskId {
        TaskId(number)
    }
}

impl From<u32> for WorkerId {
    fn from(number: u32) -> WorkerId {
        WorkerId(number)
    }
}

/// Prints the number.
impl fmt::Display for TaskId {
    fn fmt(&self, to: &mut fmt::Formatter<'_>) -> fmt::Result {
        self.0.fmt(to)
    }
}

/// Prints the number.
impl fmt::Display for WorkerId {
    fn fmt(&self, to: &mut fmt::Formatter<'_>) -> fmt::Result {
        self.0.fmt(to)
    }
}
