//! What the rings, hands and records of a job hold: tasks, or the copies of a weak job. All that doesn't look inside them
//! is written once, over a [`Kind`].

use crate::ffi::{StepReply, WeakStepReply};
use crate::ids::{TaskCopy, TaskId, WorkerId};
use crate::memory::{Entry, Memory, Run, Words, UNWRITTEN};
use crate::refusal::Refusal;
use crate::reply::{Reply, Said};
use crate::step::{Placed, Released};
use std::fmt::{Debug, Display};
use std::hash::Hash;

/// A kind of job, for this crate alone.
pub trait Kind: Copy + Debug + Eq + Hash + 'static {
    /// A slot of a ring, and a hand, as they are lent.
    type Slot: Words;
    /// What is in it.
    type Item: Copy + Debug + Display + Eq + Hash;
    /// An entry of the record, as it is lent.
    type Entry: Words;
    /// The run words.
    type Run: RunWords;
    /// What the library answers to a step.
    type Reply: Into<Said>;
    /// What an accepted Release did.
    type Released: Copy + Debug + Eq + Hash;

    /// How many entries the record has room for.
    fn record_room(tasks: usize, edges: usize) -> usize;
    /// How many fixed words there are.
    fn fixed_words(tasks: usize) -> usize;
    /// How many entries a finished record has.
    fn all_entries(memory: &Memory<Self>) -> usize;
    /// How many accepted steps a finished run has.
    fn all_steps(memory: &Memory<Self>) -> usize;
    /// The task in a slot.
    fn task(slot: Self::Slot) -> TaskId;
    /// What is in a slot.
    fn item(slot: Self::Slot) -> Self::Item;
    /// The answer to an accepted Fetch.
    fn fetched(reply: &Reply) -> Result<Self::Item, Refusal>;
    /// The answer to an accepted Release.
    fn released(reply: &Reply) -> Result<Self::Released, Refusal>;
}

/// The run words that both kinds have.
pub trait RunWords: Words {
    /// Of a job that isn't begun.
    const NONE: Self;
    /// How many entries are recorded.
    fn entries(self) -> usize;
    /// How many steps were accepted.
    fn accepted(self) -> usize;
}

/// Tasks: "Rings P·P·K", "Execution record 2N (task, worker)".
#[derive(Clone, Copy, Debug, PartialEq, Eq, Hash)]
pub struct Plain;

/// Copies: "Its rings and hands hold copies (task, predecessor), two words each".
#[derive(Clone, Copy, Debug, PartialEq, Eq, Hash)]
pub struct Weak;

impl Kind for Plain {
    type Slot = TaskId;
    type Item = TaskId;
    type Entry = Entry;
    type Run = Run;
    type Reply = StepReply;
    type Released = Released;

    fn record_room(tasks: usize, _edges: usize) -> usize {
        tasks
    }

    fn fixed_words(_tasks: usize) -> usize {
        0
    }

    fn all_entries(memory: &Memory<Plain>) -> usize {
        memory.tasks()
    }

    fn all_steps(memory: &Memory<Plain>) -> usize {
        3 * memory.tasks() + memory.edges()
    }

    fn task(slot: TaskId) -> TaskId {
        slot
    }

    fn item(slot: TaskId) -> TaskId {
        slot
    }

    fn fetched(reply: &Reply) -> Result<TaskId, Refusal> {
        reply.fetched()
    }

    fn released(reply: &Reply) -> Result<Released, Refusal> {
        reply.released()
    }
}

impl Kind for Weak {
    type Slot = Copied;
    type Item = TaskCopy;
    type Entry = Recorded;
    type Run = WeakRun;
    type Reply = WeakStepReply;
    type Released = Placed;

    fn record_room(tasks: usize, edges: usize) -> usize {
        edges + tasks
    }

    fn fixed_words(tasks: usize) -> usize {
        tasks
    }

    fn all_entries(memory: &Memory<Weak>) -> usize {
        memory.edges() + memory.run.roots as usize
    }

    fn all_steps(memory: &Memory<Weak>) -> usize {
        4 * memory.edges() + 3 * memory.run.roots as usize
    }

    fn task(slot: Copied) -> TaskId {
        slot.task
    }

    fn item(slot: Copied) -> TaskCopy {
        TaskCopy::of(slot.task, slot.predecessor)
    }

    fn fetched(reply: &Reply) -> Result<TaskCopy, Refusal> {
        reply.copy_fetched()
    }

    fn released(reply: &Reply) -> Result<Placed, Refusal> {
        reply.copy_placed()
    }
}

/// A copy as it is lent: "a root has one copy with NIL", "an empty hand NIL twice".
#[derive(Clone, Copy, Debug, PartialEq, Eq, Hash)]
#[repr(C)]
pub struct Copied {
    pub task: TaskId,
    pub predecessor: u32,
}

/// An entry of a weak job's record: "three words per copy (task, predecessor, worker)".
#[derive(Clone, Copy, Debug, PartialEq, Eq, Hash)]
#[repr(C)]
pub struct Recorded {
    pub copy: Copied,
    pub worker: WorkerId,
}

/// The run words of a weak job: "A third run word […] keeps R".
#[derive(Clone, Copy, Debug, PartialEq, Eq, Hash)]
#[repr(C)]
pub struct WeakRun {
    pub run: Run,
    pub roots: u32,
}

impl Words for Copied {
    const UNWRITTEN: Copied = Copied {
        task: TaskId::new(UNWRITTEN),
        predecessor: UNWRITTEN,
    };

    fn words(self) -> Vec<u32> {
        vec![self.task.number(), self.predecessor]
    }
}

impl Words for Recorded {
    const UNWRITTEN: Recorded = Recorded {
        copy: Copied::UNWRITTEN,
        worker: WorkerId::new(UNWRITTEN),
    };

    fn words(self) -> Vec<u32> {
        let Copied { task, predecessor } = self.copy;
        vec![task.number(), predecessor, self.worker.number()]
    }
}

impl Words for WeakRun {
    const UNWRITTEN: WeakRun = WeakRun {
        run: Run::UNWRITTEN,
        roots: UNWRITTEN,
    };

    fn words(self) -> Vec<u32> {
        vec![self.run.entries, self.run.accepted, self.roots]
    }
}

impl RunWords for Run {
    const NONE: Run = Run {
        entries: 0,
        accepted: 0,
    };

    fn entries(self) -> usize {
        self.entries as usize
    }

    fn accepted(self) -> usize {
        self.accepted as usize
    }
}

impl RunWords for WeakRun {
    const NONE: WeakRun = WeakRun {
        run: Run::NONE,
        roots: 0,
    };

    fn entries(self) -> usize {
        self.run.entries()
    }

    fn accepted(self) -> usize {
        self.run.accepted()
    }
}
