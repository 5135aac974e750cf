//! What a weak job alone shows.

use crate::ids::{TaskCopy, TaskId, WorkerId};
use crate::job::{Side, WeakJob};
use crate::kinds::{Kind, Recorded, RunWords, Weak};
use crate::refusal::Refusal;

/// An entry of a weak job's record: a copy, and the worker that completed it.
#[derive(Clone, Copy, Debug, PartialEq, Eq, Hash)]
pub struct CopyEntry {
    /// The copy.
    pub copy: TaskCopy,
    /// The worker that completed it.
    pub worker: WorkerId,
}

impl From<Recorded> for CopyEntry {
    fn from(Recorded { copy, worker }: Recorded) -> CopyEntry {
        CopyEntry {
            copy: Weak::item(copy),
            worker,
        }
    }
}

/// Views of copies, and the neighbour lookup.
impl WeakJob {
    /// The record of this run: each completed copy with its worker, in the order of their Completes.
    ///
    /// ```
    /// use yolluvek::{Refusal, TaskId, WeakJob, WorkerId};
    ///
    /// let mut job = WeakJob::from_text(b"0\n0 0 0\n1 0 1 0\n", 1, 2)?;
    /// job.begin()?;
    /// let worker = WorkerId::new(0);
    /// while !job.is_finished() {
    ///     job.fetch(worker)?;
    ///     job.start(worker)?;
    ///     job.complete(worker)?;
    ///     while job.release(worker).is_ok() {}
    /// }
    /// let copies: Vec<String> = job.record().map(|entry| entry.copy.to_string()).collect();
    /// assert_eq!(copies, ["0", "1·0"]);
    /// assert_eq!(job.record().next_back().map(|entry| entry.copy.predecessor), Some(Some(TaskId::new(0))));
    /// # Ok::<(), Refusal>(())
    /// ```
    pub fn record(&self) -> impl DoubleEndedIterator<Item = CopyEntry> + ExactSizeIterator + Clone + '_ {
        let entries = self.memory.executed.get(..self.memory.run.entries());
        entries.unwrap_or(&[]).iter().copied().map(CopyEntry::from)
    }

    /// The worker that a task is fixed to: the one that its first copy was placed with, and all its copies go to. None
    /// before that, or if there is no such task or no accepted begin.
    ///
    /// ```
    /// use yolluvek::{Refusal, TaskId, WeakJob, WorkerId};
    ///
    /// let mut job = WeakJob::from_text(b"0\n0 0 0\n1 0 1 0\n", 2, 2)?;
    /// job.begin()?;
    /// assert_eq!(job.fixed(TaskId::new(0)), Some(WorkerId::new(0)));
    /// assert_eq!(job.fixed(TaskId::new(1)), None);
    /// # Ok::<(), Refusal>(())
    /// ```
    pub fn fixed(&self, task: TaskId) -> Option<WorkerId> {
        let &word = self.memory.fixed.get(task.number() as usize)?;
        (self.begun && (word as usize) < self.workers).then_some(WorkerId::new(word))
    }

    /// How many tasks have no predecessors, R. None before an accepted begin, which counts them.
    pub fn roots(&self) -> Option<usize> {
        self.begun.then_some(self.memory.run.roots as usize)
    }

    /// The neighbour lookup, as [`Job::lookup`](crate::Job::lookup) has it.
    ///
    /// # Errors
    ///
    /// Refused as there.
    pub fn lookup(&self, side: Side, task: TaskId) -> Result<&[TaskId], Refusal> {
        self.neighbours(side, task)
    }
}
