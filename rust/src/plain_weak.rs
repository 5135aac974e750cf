//! Weak jobs as one would write them in plain Rust: the same refusals in the same order and the same words written as documents 01
//! and 02 say, over lent slices, without allocation in a step and with a begin that is linear in tasks and edges. The cost of the
//! proved weak calls is compared with their own.
//!
//! Each step reads all its words before it writes one, so that a refused call writes nothing. The calls are inlined where they are
//! made, so that one which is handed pointers and lengths need not store them as slices first.

use crate::engine::Engine;
use crate::memory::{Step, ACCEPTED, ENTRIES, NIL};
use crate::model::{refused, Refusal};
use crate::plain_engine::lists::{lend, Item, LentLists};
use crate::plain_engine::{after, damaged, word, FETCHED, IDLE, RUNNING};
use crate::weak::{
    Copied, Memory, Outcome, COPY_WORDS, CURSOR, ENTRY_WORDS, HELD_PRED, HELD_TASK, PHASE, POINTER, READ, ROOTS,
    ROW_WORDS, RUN_WORDS, UNFIXED, WRITE,
};

/// The weak calls of this file, lent the lists of a `Memory`.
pub const PLAIN: Engine<Memory> = Engine {
    name: "plain weak",
    begin: |memory, p, k| begin(&mut Lent::of(memory), p, k),
    step: |memory, p, k, worker, which| step(&mut Lent::of(memory), p, k, worker, which),
};

/// Task and predecessor of a copy, which a ring holds.
type CopyWords = [u32; COPY_WORDS];

impl Item for CopyWords {
    const ZERO: CopyWords = [0; COPY_WORDS];
    const POINTER: usize = POINTER;
    const READ: usize = READ;
    const WRITE: usize = WRITE;
    const CURSOR: usize = CURSOR;
    const RUN_WORDS: usize = RUN_WORDS;

    #[inline(always)]
    fn root(task: u32) -> CopyWords {
        [task, NIL]
    }

    #[inline(always)]
    fn record_words(n: usize, e: usize) -> usize {
        ENTRY_WORDS * (e + n)
    }
}

/// The lists that a weak call is lent.
#[derive(Debug)]
pub struct Lent<'a> {
    pub lists: LentLists<'a, CopyWords, ROW_WORDS>,
    /// The worker of each task, 65,535 before its first copy.
    pub fixed: &'a mut [u32],
}

impl<'a> Lent<'a> {
    pub fn of(memory: &'a mut Memory) -> Lent<'a> {
        Lent {
            lists: lend!(memory),
            fixed: &mut memory.fixed,
        }
    }

    /// 1: "Each length is exact."
    #[inline(always)]
    fn judge_lengths(&self, p: usize, k: usize) -> Result<(), Refusal> {
        self.lists.judge_lengths(p, k)?;
        if self.fixed.len() != self.lists.n() {
            return refused(1, 0);
        }
        Ok(())
    }

    /// "In a step: 2, 1, 7, phase word (8), 9": the worker's place among the rows, and the row.
    #[inline]
    fn judge_step(&self, p: usize, k: usize, worker: u32, suits: u32) -> Result<(usize, [u32; ROW_WORDS]), Refusal> {
        self.lists.judge_limits(p, k)?;
        self.judge_lengths(p, k)?;
        self.lists.judge_row(worker, suits)
    }
}

impl LentLists<'_, CopyWords, ROW_WORDS> {
    /// "keeps R (over N is damaged)"
    #[inline(always)]
    fn roots(&self) -> Result<usize, Refusal> {
        let roots = self.run[ROOTS] as usize;
        if roots > self.n() {
            return damaged();
        }
        Ok(roots)
    }

    /// R is read just before the accepted word, of which 4E + 3R or more is damaged: the word with 1 added.
    #[inline]
    fn accepted(&self) -> Result<u32, Refusal> {
        self.next_accepted(4 * self.e() + 3 * self.roots()?)
    }

    /// "a predecessor word neither NIL nor below N is damaged": the copy, the task as a place.
    #[inline]
    fn copy(&self, task: u32, pred: u32) -> Result<(usize, u32), Refusal> {
        let task = self.task(task)?;
        if pred != NIL && pred as usize >= self.n() {
            return damaged();
        }
        Ok((task, pred))
    }
}

/// "Order in begin: 2, 1, 3, 4, 5, 6." Accepted, everything is laid down as "Begin" says, and No. 6 for a weak job.
#[inline(always)]
pub fn begin(lent: &mut Lent, p: usize, k: usize) -> Result<(), Refusal> {
    lent.lists.judge_weights(p, k)?;
    lent.judge_lengths(p, k)?;
    let Lent { lists, fixed } = lent;
    let roots = lists.begin(p, k, [IDLE, NIL, NIL, 0, 0, 0, 0])?;
    lists.run[ROOTS] = word(roots);
    fixed.fill(UNFIXED);
    lists.place_roots(p, k, |degrees, root, owner| {
        degrees[root] = 1;
        fixed[root] = word(owner);
    });
    Ok(())
}

pub fn step(lent: &mut Lent, p: usize, k: usize, worker: u32, step: Step) -> Result<Outcome, Refusal> {
    match step {
        Step::Fetch => fetch(lent, p, k, worker),
        Step::Start => start(lent, p, k, worker),
        Step::Complete => complete(lent, p, k, worker),
        Step::Release => release(lent, p, k, worker),
    }
}

/// "Take its head, which becomes the held task; the slot's word stays. […] The pointer becomes the ring after, modulo P."
#[inline(always)]
pub fn fetch(lent: &mut Lent, p: usize, k: usize, worker: u32) -> Result<Outcome, Refusal> {
    let (i, row) = lent.judge_step(p, k, worker, IDLE)?;
    let lists = &mut lent.lists;
    let (filler, ends) = lists.waiting_ring(p, k, i, row)?;
    let ring = i * p + filler;
    let [task, pred] = lists.rings[ring * k + ends.head];
    lists.copy(task, pred)?;
    let accepted = lists.accepted()?;

    lists.take(k, ring, ends);
    let row = &mut lists.rows[i];
    row[PHASE] = FETCHED;
    row[HELD_TASK] = task;
    row[HELD_PRED] = pred;
    row[POINTER] = word(after(filler, p));
    lists.run[ACCEPTED] = accepted;
    let copy = Copied { task, pred };
    Ok(Outcome::Fetched { copy })
}

/// "the phase alone"
#[inline(always)]
pub fn start(lent: &mut Lent, p: usize, k: usize, worker: u32) -> Result<Outcome, Refusal> {
    let (i, _) = lent.judge_step(p, k, worker, FETCHED)?;
    let accepted = lent.lists.accepted()?;

    lent.lists.rows[i][PHASE] = RUNNING;
    lent.lists.run[ACCEPTED] = accepted;
    Ok(Outcome::Moved)
}

/// "A copy's Complete alone lowers the degree […], and the last one completes the task." "Weight […] leaves when the last copy
/// completes".
#[inline(always)]
pub fn complete(lent: &mut Lent, p: usize, k: usize, worker: u32) -> Result<Outcome, Refusal> {
    let (i, row) = lent.judge_step(p, k, worker, RUNNING)?;
    let lists = &mut lent.lists;
    let entries = lists.free_entry(lists.e() + lists.roots()?)?;
    let (task, pred) = lists.copy(row[HELD_TASK], row[HELD_PRED])?;
    let degree = lists.degree(task)?;

    if degree == 1 {
        let leaving = lists.judge_leave(p, i, task, row)?;
        lists.run[ACCEPTED] = lists.accepted()?;
        lists.leave(p, i, task, leaving);
    } else {
        lists.run[ACCEPTED] = lists.accepted()?;
    }
    lists.degrees[task] = degree - 1;
    lists.executed[ENTRY_WORDS * entries..][..ENTRY_WORDS].copy_from_slice(&[word(task), pred, worker]);
    let row = &mut lists.rows[i];
    row[PHASE] = IDLE;
    row[HELD_TASK] = NIL;
    row[HELD_PRED] = NIL;
    lists.run[ENTRIES] = word(entries + 1);
    Ok(Outcome::Moved)
}

/// "the oldest task in i's buffer, its successor s at the cursor." "Release always makes one copy and answers it with its owner".
#[inline(always)]
pub fn release(lent: &mut Lent, p: usize, k: usize, worker: u32) -> Result<Outcome, Refusal> {
    let (i, row) = lent.judge_step(p, k, worker, IDLE)?;
    let releasing = lent.lists.judge_release(i, row)?;

    let copy = [word(releasing.successor), word(releasing.task)];
    let owner = match lent.fixed[releasing.successor] {
        UNFIXED => first_copy(lent, p, k, i, copy)?,
        fixed if fixed as usize >= p => return damaged(),
        fixed => later_copy(lent, p, k, i, copy, fixed as usize)?,
    };
    lent.lists.advance(i, releasing);
    let (owner, [task, pred]) = (word(owner), copy);
    let copy = Copied { task, pred };
    Ok(Outcome::Placed { copy, owner })
}

/// "The first copy of a task picks its ring as in document 01 and fixes the task's worker", and its weight joins. Everything that can
/// still refuse the Release is judged before a word is written. The ring's owner.
#[inline(always)]
fn first_copy(lent: &mut Lent, p: usize, k: usize, i: usize, copy: CopyWords) -> Result<usize, Refusal> {
    let Lent { lists, fixed } = lent;
    let task = copy[0] as usize;
    let placing = lists.judge_place(p, k, i, task)?;
    let accepted = lists.accepted()?;

    let owner = placing.owner;
    lists.place(p, k, i, placing, copy);
    fixed[task] = word(owner);
    lists.run[ACCEPTED] = accepted;
    Ok(owner)
}

/// "later copies go only to that worker's ring, and 11 is given exactly if that ring is full". The ring's owner.
#[inline(always)]
fn later_copy(lent: &mut Lent, p: usize, k: usize, i: usize, copy: CopyWords, owner: usize) -> Result<usize, Refusal> {
    let lists = &mut lent.lists;
    let ring = owner * p + i;
    let ends = lists.ends_of(ring, k)?;
    if ends.count == k {
        return refused(11, copy[0]);
    }
    let accepted = lists.accepted()?;

    lists.append(k, ring, ends, copy);
    lists.run[ACCEPTED] = accepted;
    Ok(owner)
}
