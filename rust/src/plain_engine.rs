//! The engine as one would write it in plain Rust: the same refusals in the same order and the same words written as documents
//! 01 and 02 say, over lent slices, without allocation in a step and with a begin that is linear in tasks and edges. The cost of
//! the proved engine is compared with its own.
//!
//! Each step reads all its words before it writes one, so that a refused call writes nothing. The calls are inlined where they are
//! made, so that one which is handed pointers and lengths need not store them as slices first.

pub(crate) mod graph;
pub(crate) mod lists;

use crate::engine::Engine;
use crate::memory::{
    Memory, Outcome, Step, ACCEPTED, CURSOR, ENTRIES, HELD, NIL, PHASE, POINTER, READ, ROW_WORDS, WRITE,
};
use crate::model::{refused, Refusal};
pub use lists::LentLists;
use lists::{lend, Item};

/// "Phases: 0 idle, 1 fetched, 2 running."
pub(crate) const IDLE: u32 = 0;
pub(crate) const FETCHED: u32 = 1;
pub(crate) const RUNNING: u32 = 2;

/// The engine of this file, lent the lists of a `Memory`.
pub const PLAIN: Engine = Engine {
    name: "plain",
    begin: |memory, p, k| begin(&mut Lent::of(memory), p, k),
    step: |memory, p, k, worker, which| step(&mut Lent::of(memory), p, k, worker, which),
};

/// A ring holds tasks.
impl Item for u32 {
    const ZERO: u32 = 0;
    const POINTER: usize = POINTER;
    const READ: usize = READ;
    const WRITE: usize = WRITE;
    const CURSOR: usize = CURSOR;
    const RUN_WORDS: usize = 2;

    #[inline(always)]
    fn root(task: u32) -> u32 {
        task
    }

    #[inline(always)]
    fn record_words(n: usize, _: usize) -> usize {
        2 * n
    }
}

pub type Lent<'a> = LentLists<'a, u32, ROW_WORDS>;

impl<'a> Lent<'a> {
    pub fn of(memory: &'a mut Memory) -> Lent<'a> {
        lend!(memory)
    }

    /// "In a step: 2, 1, 7, phase word (8), 9": the worker's place among the rows, and the row.
    #[inline]
    fn judge_step(&self, p: usize, k: usize, worker: u32, suits: u32) -> Result<(usize, [u32; ROW_WORDS]), Refusal> {
        self.judge_limits(p, k)?;
        self.judge_lengths(p, k)?;
        self.judge_row(worker, suits)
    }

    /// "accepted word 3N+E or more" is damaged: the word with 1 added.
    #[inline]
    fn accepted(&self) -> Result<u32, Refusal> {
        self.next_accepted(3 * self.n() + self.e())
    }
}

/// 8: "a damaged word", detail 0.
pub(crate) fn damaged<T>() -> Result<T, Refusal> {
    refused(8, 0)
}

/// A place or a number as a word: once the limits hold, all of them are far below 2^32.
pub(crate) fn word(value: usize) -> u32 {
    value as u32
}

/// The number after this one, modulo `bound`, which is above both.
pub(crate) fn after(number: usize, bound: usize) -> usize {
    if number + 1 == bound {
        0
    } else {
        number + 1
    }
}

/// "Order in begin: 2, 1, 3, 4, 5, 6." Accepted, everything is laid down as "Begin" says.
#[inline(always)]
pub fn begin(lent: &mut Lent, p: usize, k: usize) -> Result<(), Refusal> {
    lent.judge_weights(p, k)?;
    lent.judge_lengths(p, k)?;
    lent.begin(p, k, [IDLE, NIL, 0, 0, 0, 0])?;
    lent.place_roots(p, k, |_, _, _| ());
    Ok(())
}

pub fn step(lent: &mut Lent, p: usize, k: usize, worker: u32, step: Step) -> Result<Outcome, Refusal> {
    match step {
        Step::Fetch => fetch(lent, p, k, worker),
        Step::Start => start(lent, p, k, worker),
        Step::Complete => complete(lent, p, k, worker),
        Step::Release => release(lent, p, k, worker),
    }
}

/// "Take its head, which becomes the held task; the slot's word stays. […] The pointer becomes the ring after, modulo P."
#[inline(always)]
pub fn fetch(lent: &mut Lent, p: usize, k: usize, worker: u32) -> Result<Outcome, Refusal> {
    let (i, row) = lent.judge_step(p, k, worker, IDLE)?;
    let (filler, ends) = lent.waiting_ring(p, k, i, row)?;
    let ring = i * p + filler;
    let task = lent.task(lent.rings[ring * k + ends.head])?;
    let accepted = lent.accepted()?;

    let task = word(task);
    lent.take(k, ring, ends);
    let row = &mut lent.rows[i];
    row[PHASE] = FETCHED;
    row[HELD] = task;
    row[POINTER] = word(after(filler, p));
    lent.run[ACCEPTED] = accepted;
    Ok(Outcome::Fetched { task })
}

/// "the phase alone"
#[inline(always)]
pub fn start(lent: &mut Lent, p: usize, k: usize, worker: u32) -> Result<Outcome, Refusal> {
    let (i, _) = lent.judge_step(p, k, worker, FETCHED)?;
    let accepted = lent.accepted()?;

    lent.rows[i][PHASE] = RUNNING;
    lent.run[ACCEPTED] = accepted;
    Ok(Outcome::Moved)
}

/// "(task, i) joins the record; the task joins i's completed buffer if it has successors; held becomes NIL." "the weight leaves
/// counter (i, i) at Complete"
#[inline(always)]
pub fn complete(lent: &mut Lent, p: usize, k: usize, worker: u32) -> Result<Outcome, Refusal> {
    let (i, row) = lent.judge_step(p, k, worker, RUNNING)?;
    let entries = lent.free_entry(lent.n())?;
    let task = lent.task(row[HELD])?;
    let leaving = lent.judge_leave(p, i, task, row)?;
    let accepted = lent.accepted()?;

    lent.executed[2 * entries] = word(task);
    lent.executed[2 * entries + 1] = worker;
    lent.leave(p, i, task, leaving);
    let row = &mut lent.rows[i];
    row[PHASE] = IDLE;
    row[HELD] = NIL;
    lent.run[ENTRIES] = word(entries + 1);
    lent.run[ACCEPTED] = accepted;
    Ok(Outcome::Moved)
}

/// "the oldest task in i's buffer, its successor s at the cursor. The degree of s falls by one."
#[inline(always)]
pub fn release(lent: &mut Lent, p: usize, k: usize, worker: u32) -> Result<Outcome, Refusal> {
    let (i, row) = lent.judge_step(p, k, worker, IDLE)?;
    let releasing = lent.judge_release(i, row)?;
    let successor = releasing.successor;
    let degree = lent.degree(successor)?;

    let outcome = if degree == 1 {
        place(lent, p, k, i, successor)?
    } else {
        lent.run[ACCEPTED] = lent.accepted()?;
        Outcome::DegreeLeft { degree: degree - 1 }
    };
    lent.degrees[successor] = degree - 1;
    lent.advance(i, releasing);
    Ok(outcome)
}

/// The successor is appended. Everything that can still refuse the Release is judged before a word is written.
#[inline(always)]
fn place(lent: &mut Lent, p: usize, k: usize, i: usize, successor: usize) -> Result<Outcome, Refusal> {
    let placing = lent.judge_place(p, k, i, successor)?;
    let accepted = lent.accepted()?;

    let (task, owner) = (word(successor), word(placing.owner));
    lent.place(p, k, i, placing, task);
    lent.run[ACCEPTED] = accepted;
    Ok(Outcome::Placed { task, owner })
}
