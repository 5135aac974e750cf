//! The lists that a call of either family is lent, and what its calls read and write alike in them. Everything is inlined, so that
//! each call is compiled for its own family.

use super::graph::Preds;
use super::{after, damaged, word, RUNNING};
use crate::memory::{ACCEPTED, COUNT, END_WORDS, ENTRIES, HEAD, PHASE, TAIL};
use crate::model::{refused, Refusal, MAX_EDGES, MAX_TASKS};
use std::ops::{Range, RangeInclusive};

const WORKERS: RangeInclusive<usize> = 1..=16;
const SLOTS: RangeInclusive<usize> = 2..=64;
const MAX_WEIGHT: u32 = 65_535;
/// "counter beyond ±2^30"
const COUNTERS: RangeInclusive<i32> = -(1 << 30)..=1 << 30;

/// What a ring holds in one slot, and what else parts one family from the other.
pub trait Item: Copy {
    /// A slot before anything is placed in it.
    const ZERO: Self;
    /// Where a row has its ring pointer, buffer places and cursor.
    const POINTER: usize;
    const READ: usize;
    const WRITE: usize;
    const CURSOR: usize;
    /// The length of the run words.
    const RUN_WORDS: usize;

    /// What begin places for a root.
    fn root(task: u32) -> Self;

    /// The length of the record.
    fn record_words(n: usize, e: usize) -> usize;
}

/// One slice for each lent list of document 01, in its order.
#[derive(Debug)]
pub struct LentLists<'a, T, const ROW_WORDS: usize> {
    pub weights: &'a [u32],
    pub pred_starts: &'a [u32],
    pub preds: &'a [u32],
    pub succ_starts: &'a mut [u32],
    pub succs: &'a mut [u32],
    pub degrees: &'a mut [u32],
    pub rings: &'a mut [T],
    /// P·P triples: head, tail, count.
    pub ends: &'a mut [u32],
    pub counters: &'a mut [i32],
    pub buffers: &'a mut [u32],
    /// The record: item and worker of each entry.
    pub executed: &'a mut [u32],
    pub run: &'a mut [u32],
    pub rows: &'a mut [[u32; ROW_WORDS]],
}

/// The lists of a family's memory, lent.
macro_rules! lend {
    ($memory:expr) => {
        LentLists {
            weights: &$memory.weights,
            pred_starts: &$memory.pred_starts,
            preds: &$memory.preds,
            succ_starts: &mut $memory.succ_starts,
            succs: &mut $memory.succs,
            degrees: &mut $memory.degrees,
            rings: &mut $memory.rings,
            ends: &mut $memory.ends,
            counters: &mut $memory.counters,
            buffers: &mut $memory.buffers,
            executed: &mut $memory.executed,
            run: &mut $memory.run,
            rows: &mut $memory.rows,
        }
    };
}

pub(crate) use lend;

/// A ring's ends, none of them damaged.
#[derive(Clone, Copy)]
pub(crate) struct Ends {
    pub head: usize,
    pub tail: usize,
    pub count: usize,
}

/// Where a task is placed that picks its ring: the ring's owner and ends, and the task's weight.
pub(crate) struct Placing {
    pub owner: usize,
    pub ends: Ends,
    pub weight: i32,
}

/// What a completed task leaves behind: counter (i, i) without its weight, and its place in i's buffer if it joins that.
pub(crate) struct Leaving {
    counter: i32,
    place: Option<usize>,
}

/// "the oldest task in i's buffer, its successor s at the cursor", and the places of both.
pub(crate) struct Releasing {
    pub task: usize,
    pub successor: usize,
    read: usize,
    cursor: usize,
    /// The number of the task's successors.
    count: usize,
}

impl<'a, T: Item, const ROW_WORDS: usize> LentLists<'a, T, ROW_WORDS> {
    /// "N and E are the lengths of weights and predecessors": N.
    #[inline(always)]
    pub(crate) fn n(&self) -> usize {
        self.weights.len()
    }

    /// "N and E are the lengths of weights and predecessors": E.
    #[inline(always)]
    pub(crate) fn e(&self) -> usize {
        self.preds.len()
    }

    /// 2: "N, E, P, K or (begin) a weight beyond its limit", without the weights.
    #[inline(always)]
    pub(crate) fn judge_limits(&self, p: usize, k: usize) -> Result<(), Refusal> {
        if self.n() > MAX_TASKS || self.e() > MAX_EDGES || !WORKERS.contains(&p) || !SLOTS.contains(&k) {
            return refused(2, 0);
        }
        Ok(())
    }

    /// 2 in begin: the limits, then the weights.
    #[inline(always)]
    pub(crate) fn judge_weights(&self, p: usize, k: usize) -> Result<(), Refusal> {
        self.judge_limits(p, k)?;
        if self.weights.iter().any(|&weight| weight > MAX_WEIGHT) {
            return refused(2, 0);
        }
        Ok(())
    }

    /// 1: "Each length is exact." The limits hold, so no product overflows.
    #[inline(always)]
    pub(crate) fn judge_lengths(&self, p: usize, k: usize) -> Result<(), Refusal> {
        let (n, e) = (self.n(), self.e());
        let right = self.pred_starts.len() == n + 1
            && self.succ_starts.len() == n + 1
            && self.succs.len() == e
            && self.degrees.len() == n
            && self.rings.len() == p * p * k
            && self.ends.len() == END_WORDS * p * p
            && self.counters.len() == p * p
            && self.buffers.len() == p * n
            && self.executed.len() == T::record_words(n, e)
            && self.run.len() == T::RUN_WORDS
            && self.rows.len() == p;
        if right {
            Ok(())
        } else {
            refused(1, 0)
        }
    }

    /// 7, phase word (8), 9: the worker's place among the rows, and the row.
    #[inline(always)]
    pub(crate) fn judge_row(&self, worker: u32, suits: u32) -> Result<(usize, [u32; ROW_WORDS]), Refusal> {
        let i = worker as usize;
        let Some(&row) = self.rows.get(i) else {
            return refused(7, worker);
        };
        match row[PHASE] {
            phase if phase > RUNNING => damaged(),
            phase if phase != suits => refused(9, phase),
            _ => Ok((i, row)),
        }
    }

    /// "the accepted word is read last of all", and one that is all the steps of a run or more is damaged: the word with 1 added.
    #[inline]
    pub(crate) fn next_accepted(&self, all: usize) -> Result<u32, Refusal> {
        let accepted = self.run[ACCEPTED];
        if accepted >= word(all) {
            return damaged();
        }
        Ok(accepted + 1)
    }

    /// An entries word over the most that a run records is damaged, and 12 is given at the most: the next entry's number.
    #[inline(always)]
    pub(crate) fn free_entry(&self, most: usize) -> Result<usize, Refusal> {
        match self.run[ENTRIES] as usize {
            entries if entries > most => damaged(),
            entries if entries == most => refused(12, 0),
            entries => Ok(entries),
        }
    }

    /// "head or tail ≥ K", "A count over K, or head plus count not leading to tail modulo K" is damaged: the ends of a ring.
    #[inline]
    pub(crate) fn ends_of(&self, ring: usize, k: usize) -> Result<Ends, Refusal> {
        let words = &self.ends[END_WORDS * ring..][..END_WORDS];
        let (head, tail, count) = (words[HEAD] as usize, words[TAIL] as usize, words[COUNT] as usize);
        if head >= k || count > k {
            return damaged();
        }
        // head plus count is below 2·K; led to, the tail is below K
        let led = head + count;
        let led = if led >= k { led - k } else { led };
        if led != tail {
            return damaged();
        }
        Ok(Ends { head, tail, count })
    }

    /// "ring, buffer, held or successor word ≥ N" is damaged: the word as a place.
    #[inline]
    pub(crate) fn task(&self, word: u32) -> Result<usize, Refusal> {
        let task = word as usize;
        if task >= self.n() {
            return damaged();
        }
        Ok(task)
    }

    /// A degree of 0 or over N is damaged where it would fall: the degree.
    #[inline]
    pub(crate) fn degree(&self, task: usize) -> Result<u32, Refusal> {
        match self.degrees[task] {
            degree if degree == 0 || degree as usize > self.n() => damaged(),
            degree => Ok(degree),
        }
    }

    /// "weight over 65,535" is damaged: the weight, which a counter takes without overflow.
    #[inline]
    fn weight(&self, task: usize) -> Result<i32, Refusal> {
        match self.weights[task] {
            weight if weight > MAX_WEIGHT => damaged(),
            weight => Ok(weight as i32),
        }
    }

    /// "counter beyond ±2^30" is damaged: counter (i, i).
    #[inline(always)]
    fn own_counter(&self, p: usize, i: usize) -> Result<i32, Refusal> {
        match self.counters[i * p + i] {
            counter if !COUNTERS.contains(&counter) => damaged(),
            counter => Ok(counter),
        }
    }

    /// "successor range without start t ≤ start t+1 ≤ E" is damaged: the places of the task's successors.
    #[inline(always)]
    fn successors(&self, task: usize) -> Result<Range<usize>, Refusal> {
        let (start, end) = (self.succ_starts[task] as usize, self.succ_starts[task + 1] as usize);
        if start > end || end > self.e() {
            return damaged();
        }
        Ok(start..end)
    }

    /// "buffer places (where one is read, both are) not read ≤ write ≤ N" are damaged: both places.
    #[inline]
    fn places(&self, row: [u32; ROW_WORDS]) -> Result<(usize, usize), Refusal> {
        let (read, write) = (row[T::READ] as usize, row[T::WRITE] as usize);
        if read > write || write > self.n() {
            return damaged();
        }
        Ok((read, write))
    }

    /// "target j is the worker with the least sum of its P counters, the lowest number on equal sums"
    #[inline(always)]
    fn target(&self, p: usize) -> Result<usize, Refusal> {
        // all counters are looked at, which the compiler does several at a time
        let sound = self
            .counters
            .iter()
            .fold(true, |sound, counter| sound & COUNTERS.contains(counter));
        if !sound {
            return damaged();
        }
        let sum = |counters: &[i32]| counters.iter().map(|&counter| i64::from(counter)).sum::<i64>();
        let sums = self.counters.chunks_exact(p).map(sum);
        // the first of equal sums
        let least = sums.enumerate().min_by_key(|&(_, sum)| sum);
        Ok(least.map_or(0, |(j, _)| j))
    }

    /// "the first ring filled by i that isn't full, owners taken j, j+1, … modulo P": its owner and ends; none if all are full.
    #[inline]
    fn free_ring(&self, p: usize, k: usize, i: usize, j: usize) -> Result<Option<(usize, Ends)>, Refusal> {
        let mut owner = j;
        for _ in 0..p {
            let ends = self.ends_of(owner * p + i, k)?;
            // "full is count K"
            if ends.count < k {
                return Ok(Some((owner, ends)));
            }
            owner = after(owner, p);
        }
        Ok(None)
    }

    /// "scan the rings of owner i from the ring pointer upward, modulo P; the scan stops at the first ring that isn't empty":
    /// its filler and ends; 10 if all are empty.
    #[inline]
    pub(crate) fn waiting_ring(
        &self,
        p: usize,
        k: usize,
        i: usize,
        row: [u32; ROW_WORDS],
    ) -> Result<(usize, Ends), Refusal> {
        let mut filler = row[T::POINTER] as usize;
        if filler >= p {
            return damaged();
        }
        for _ in 0..p {
            let ends = self.ends_of(i * p + filler, k)?;
            // "empty is count 0"
            if ends.count > 0 {
                return Ok((filler, ends));
            }
            filler = after(filler, p);
        }
        refused(10, 0)
    }

    /// Begin's 3, 4, 5 and 6; accepted, everything that both families have is laid down as "Begin" says. The number of roots.
    #[inline(always)]
    pub(crate) fn begin(&mut self, p: usize, k: usize, idle: [u32; ROW_WORDS]) -> Result<usize, Refusal> {
        let preds = Preds::new(self.pred_starts, self.preds);
        let counts = preds.judge()?;
        let roots = preds.roots().count();
        if roots > p * k {
            return refused(6, word(roots));
        }

        preds.fill(counts, self.succ_starts, self.succs, self.degrees);
        for list in [&mut *self.ends, self.buffers, self.executed, self.run] {
            list.fill(0);
        }
        self.rings.fill(T::ZERO);
        self.counters.fill(0);
        self.rows.fill(idle);
        Ok(roots)
    }

    /// "root number m, from 0, goes to the ring of owner and filler m mod P, and its weight to that counter"; the roots, each with its
    /// owner, are handed on.
    #[inline(always)]
    pub(crate) fn place_roots(&mut self, p: usize, k: usize, mut placed: impl FnMut(&mut [u32], usize, usize)) {
        let mut owner = 0;
        for root in Preds::new(self.pred_starts, self.preds).roots() {
            let ring = owner * p + owner;
            let ends = &mut self.ends[END_WORDS * ring..][..END_WORDS];
            self.rings[ring * k + ends[TAIL] as usize] = T::root(word(root));
            ends[TAIL] = word(after(ends[TAIL] as usize, k));
            ends[COUNT] += 1;
            self.counters[ring] += self.weights[root] as i32;
            placed(self.degrees, root, owner);
            owner = after(owner, p);
        }
    }

    /// The ring's head is taken.
    #[inline(always)]
    pub(crate) fn take(&mut self, k: usize, ring: usize, ends: Ends) {
        let Ends { head, count, .. } = ends;
        self.ends[END_WORDS * ring + HEAD] = word(after(head, k));
        self.ends[END_WORDS * ring + COUNT] = word(count - 1);
    }

    /// The item joins the ring at its tail.
    #[inline(always)]
    pub(crate) fn append(&mut self, k: usize, ring: usize, ends: Ends, item: T) {
        let Ends { tail, count, .. } = ends;
        self.rings[ring * k + tail] = item;
        self.ends[END_WORDS * ring + TAIL] = word(after(tail, k));
        self.ends[END_WORDS * ring + COUNT] = word(count + 1);
    }

    /// "s is appended to the first ring filled by i that isn't full […]": that ring; 11 if there is none.
    #[inline(always)]
    pub(crate) fn judge_place(&self, p: usize, k: usize, i: usize, task: usize) -> Result<Placing, Refusal> {
        let target = self.target(p)?;
        let Some((owner, ends)) = self.free_ring(p, k, i, target)? else {
            return refused(11, word(task));
        };
        let weight = self.weight(task)?;
        Ok(Placing { owner, ends, weight })
    }

    /// "The weight joins the counter of the ring really used."
    #[inline(always)]
    pub(crate) fn place(&mut self, p: usize, k: usize, i: usize, placing: Placing, item: T) {
        let ring = placing.owner * p + i;
        self.append(k, ring, placing.ends, item);
        self.counters[ring] += placing.weight;
    }

    /// "the weight leaves counter (i, i) at Complete", and "the task joins i's completed buffer if it has successors"
    #[inline(always)]
    pub(crate) fn judge_leave(
        &self,
        p: usize,
        i: usize,
        task: usize,
        row: [u32; ROW_WORDS],
    ) -> Result<Leaving, Refusal> {
        let weight = self.weight(task)?;
        let counter = self.own_counter(p, i)? - weight;
        if self.successors(task)?.is_empty() {
            return Ok(Leaving { counter, place: None });
        }
        // the places are read only if the task joins the buffer
        match self.places(row)?.1 {
            place if place == self.n() => damaged(),
            place => Ok(Leaving {
                counter,
                place: Some(place),
            }),
        }
    }

    /// The task leaves the worker's hand.
    #[inline(always)]
    pub(crate) fn leave(&mut self, p: usize, i: usize, task: usize, leaving: Leaving) {
        self.counters[i * p + i] = leaving.counter;
        if let Some(place) = leaving.place {
            self.buffers[i * self.n() + place] = word(task);
            self.rows[i][T::WRITE] = word(place + 1);
        }
    }

    /// The successor that i's next Release is of; 10 if its buffer is empty.
    #[inline(always)]
    pub(crate) fn judge_release(&self, i: usize, row: [u32; ROW_WORDS]) -> Result<Releasing, Refusal> {
        let (read, write) = self.places(row)?;
        if read == write {
            return refused(10, 0);
        }
        let task = self.task(self.buffers[i * self.n() + read])?;
        let range = self.successors(task)?;
        let cursor = row[T::CURSOR] as usize;
        if cursor >= range.len() {
            return damaged();
        }
        let successor = self.task(self.succs[range.start + cursor])?;
        Ok(Releasing {
            task,
            successor,
            read,
            cursor,
            count: range.len(),
        })
    }

    /// "The cursor advances; after the last successor it returns to 0 and the read place advances."
    #[inline(always)]
    pub(crate) fn advance(&mut self, i: usize, releasing: Releasing) {
        let row = &mut self.rows[i];
        let next = after(releasing.cursor, releasing.count);
        row[T::CURSOR] = word(next);
        if next == 0 {
            row[T::READ] = word(releasing.read + 1);
        }
    }
}
