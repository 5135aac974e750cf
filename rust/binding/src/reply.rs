//! What the library answers to an accepted call, read exactly: what isn't expected is an error, and never read as
//! something else.

use crate::ffi::{Part, ReadReply, StepReply, WeakStepReply, WriteReply};
use crate::ids::{TaskCopy, TaskId, WorkerId, NIL};
use crate::limits::{MAX_EDGES, MAX_TASKS, MAX_WRITTEN};
use crate::refusal::Refusal;
use crate::step::{Placed, Released};

/// The kinds of an accepted step's reply.
const MOVED: u32 = 0;
const FETCHED: u32 = 1;
const DEGREE_LEFT: u32 = 2;
const PLACED: u32 = 3;
const COPY_FETCHED: u32 = 1;
const COPY_PLACED: u32 = 2;

/// A step's reply of either kind: kind and values, 0 where there are fewer.
pub struct Said {
    pub number: u32,
    pub detail: u32,
    pub words: [u32; 4],
}

impl From<StepReply> for Said {
    fn from(reply: StepReply) -> Said {
        let StepReply {
            number,
            detail,
            kind,
            first,
            second,
        } = reply;
        Said {
            number,
            detail,
            words: [kind, first, second, 0],
        }
    }
}

impl From<WeakStepReply> for Said {
    fn from(reply: WeakStepReply) -> Said {
        let WeakStepReply {
            number,
            detail,
            kind,
            first,
            second,
            third,
        } = reply;
        Said {
            number,
            detail,
            words: [kind, first, second, third],
        }
    }
}

/// The reply to an accepted step of a job with so many tasks and workers.
pub struct Reply {
    pub words: [u32; 4],
    pub tasks: usize,
    pub workers: usize,
}

impl Reply {
    /// Of a Fetch: the task.
    pub fn fetched(&self) -> Result<TaskId, Refusal> {
        match self.words[0] {
            FETCHED => self.task().ok_or(self.unexpected()),
            _ => Err(self.unexpected()),
        }
    }

    /// Of a Start or a Complete: nothing.
    pub fn moved(&self) -> Result<(), Refusal> {
        match self.words[0] {
            MOVED => Ok(()),
            _ => Err(self.unexpected()),
        }
    }

    /// Of a Release: what became of the successor.
    pub fn released(&self) -> Result<Released, Refusal> {
        let released = match self.words[0] {
            DEGREE_LEFT => self.degree().map(|degree| Released::DegreeLeft { degree }),
            PLACED => {
                let placed = self.task().zip(self.worker(2));
                placed.map(|(task, owner)| Released::Placed { task, owner })
            }
            _ => None,
        };
        released.ok_or(self.unexpected())
    }

    /// Of a weak job's Fetch: the copy.
    pub fn copy_fetched(&self) -> Result<TaskCopy, Refusal> {
        match self.words[0] {
            COPY_FETCHED => self.copy().ok_or(self.unexpected()),
            _ => Err(self.unexpected()),
        }
    }

    /// Of a weak job's Release: the copy that was placed, and its owner.
    pub fn copy_placed(&self) -> Result<Placed, Refusal> {
        let placed = match self.words[0] {
            COPY_PLACED => self.copy().zip(self.worker(3)),
            _ => None,
        };
        let (copy, owner) = placed.ok_or(self.unexpected())?;
        Ok(Placed { copy, owner })
    }

    /// A task that there is.
    fn task(&self) -> Option<TaskId> {
        let number = self.words[1];
        ((number as usize) < self.tasks).then_some(TaskId::new(number))
    }

    /// A copy of a task that there is, with a predecessor that there is or with none.
    fn copy(&self) -> Option<TaskCopy> {
        let predecessor = self.words[2];
        let known = predecessor == NIL || (predecessor as usize) < self.tasks;
        let task = self.task().filter(|_| known)?;
        Some(TaskCopy::of(task, predecessor))
    }

    /// A worker that there is.
    fn worker(&self, place: usize) -> Option<WorkerId> {
        let number = self.words[place];
        ((number as usize) < self.workers).then_some(WorkerId::new(number))
    }

    /// A degree that is left: at 0 the task would be placed.
    fn degree(&self) -> Option<u32> {
        Some(self.words[1]).filter(|&degree| degree > 0)
    }

    fn unexpected(&self) -> Refusal {
        Refusal::UnexpectedReply { words: self.words }
    }
}

/// The part of a table that an accepted lookup names.
pub(crate) fn part_of(table: &[TaskId], part: Part) -> Result<&[TaskId], Refusal> {
    let Part { place, count } = part;
    let from = table.get(place as usize..);
    let found = from.and_then(|from| from.get(..count as usize));
    found.ok_or(Refusal::UnexpectedReply {
        words: [place, count, 0, 0],
    })
}

/// N and E of a text that is read.
pub(crate) fn sizes(reply: ReadReply) -> Result<(usize, usize), Refusal> {
    let ReadReply { tasks, edges, .. } = reply;
    let sizes = (tasks as usize, edges as usize);
    if sizes.0 > MAX_TASKS || sizes.1 > MAX_EDGES {
        return Err(Refusal::UnexpectedReply {
            words: [tasks, edges, 0, 0],
        });
    }
    Ok(sizes)
}

/// How many bytes of a buffer the text has that was saved into it.
pub(crate) fn used(reply: WriteReply) -> Result<usize, Refusal> {
    let WriteReply { used, .. } = reply;
    match used as usize {
        bytes if bytes <= MAX_WRITTEN => Ok(bytes),
        _ => Err(Refusal::UnexpectedReply { words: [used, 0, 0, 0] }),
    }
}

#[cfg(test)]
mod tests {
    use super::*;

    fn reply(words: [u32; 4]) -> Reply {
        Reply {
            words,
            tasks: 4,
            workers: 2,
        }
    }

    fn unexpected<T>(words: [u32; 4]) -> Result<T, Refusal> {
        Err(Refusal::UnexpectedReply { words })
    }

    /// Every kind, by each step, with numbers that fit and that don't.
    #[test]
    fn each_kind_is_read_by_its_steps_alone() {
        for kind in (0..9).chain([u32::MAX]) {
            let words = [kind, 3, 1, 0];
            let task = TaskId::new(3);
            let owner = WorkerId::new(1);
            let fetched = if kind == 1 { Ok(task) } else { unexpected(words) };
            let moved = if kind == 0 { Ok(()) } else { unexpected(words) };
            let released = match kind {
                2 => Ok(Released::DegreeLeft { degree: 3 }),
                3 => Ok(Released::Placed { task, owner }),
                _ => unexpected(words),
            };
            assert_eq!(reply(words).fetched(), fetched);
            assert_eq!(reply(words).moved(), moved);
            assert_eq!(reply(words).released(), released);
            let copy = TaskCopy::of(task, 1);
            let owner = WorkerId::new(0);
            let fetched = if kind == 1 { Ok(copy) } else { unexpected(words) };
            let placed = match kind {
                2 => Ok(Placed { copy, owner }),
                _ => unexpected(words),
            };
            assert_eq!(reply(words).copy_fetched(), fetched);
            assert_eq!(reply(words).copy_placed(), placed);
        }
    }

    #[test]
    fn numbers_that_do_not_fit() {
        for words in [[1, 4, 0, 0], [1, u32::MAX, 0, 0]] {
            assert_eq!(reply(words).fetched(), unexpected(words));
        }
        for words in [[2, 0, 0, 0], [3, 4, 0, 0], [3, 0, 2, 0], [3, u32::MAX, u32::MAX, 0]] {
            assert_eq!(reply(words).released(), unexpected(words));
        }
        for words in [[1, 4, 0, 0], [1, 0, 4, 0], [1, NIL, NIL, 0]] {
            assert_eq!(reply(words).copy_fetched(), unexpected(words));
        }
        for words in [[2, 4, 0, 0], [2, 0, 4, 0], [2, 3, 1, 2], [3, 3, 1, 0]] {
            assert_eq!(reply(words).copy_placed(), unexpected(words));
        }
        // a root's copy has no predecessor
        let root = TaskCopy {
            task: TaskId::new(3),
            predecessor: None,
        };
        assert_eq!(reply([1, 3, NIL, 0]).copy_fetched(), Ok(root));
    }

    #[test]
    fn parts_that_do_not_fit() {
        let table = [5, 6, 7].map(TaskId::new);
        let part = |place, count| part_of(&table, Part { place, count });
        assert_eq!(part(1, 2), Ok(&table[1..]));
        assert_eq!(part(3, 0), Ok(&[][..]));
        for (place, count) in [(1, 3), (3, 1), (4, 0), (0, u32::MAX), (u32::MAX, u32::MAX)] {
            assert_eq!(part(place, count), unexpected([place, count, 0, 0]));
        }
    }

    #[test]
    fn sizes_that_do_not_fit() {
        let read = |tasks, edges| {
            sizes(ReadReply {
                number: 0,
                detail: 0,
                tasks,
                edges,
            })
        };
        assert_eq!(read(1_024, 8_192), Ok((1_024, 8_192)));
        assert_eq!(read(1_025, 0), unexpected([1_025, 0, 0, 0]));
        assert_eq!(read(2, 8_193), unexpected([2, 8_193, 0, 0]));
    }

    #[test]
    fn bytes_that_do_not_fit() {
        let written = |bytes| {
            used(WriteReply {
                number: 0,
                detail: 0,
                used: bytes,
            })
        };
        assert_eq!(written(34), Ok(34));
        assert_eq!(written(57_349), Ok(57_349));
        assert_eq!(written(57_350), unexpected([57_350, 0, 0, 0]));
        assert_eq!(written(u32::MAX), unexpected([u32::MAX, 0, 0, 0]));
    }
}
