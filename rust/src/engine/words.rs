//! The words of a step, each judged where it is read, and written where the step is accepted; the calls of plain and of weak
//! jobs share them.

use crate::memory::{Step, COUNT, END_WORDS, HEAD, TAIL};
use crate::model::{refused, word, Refusal, MAX_WEIGHT};

/// Damaged is a "counter beyond ±2^30".
const COUNTER_BOUND: i64 = 1 << 30;

/// "Phases: 0 idle, 1 fetched, 2 running."
const IDLE: u32 = 0;
const FETCHED: u32 = 1;
const RUNNING: u32 = 2;

/// "phase word (8), 9": damaged is a "phase over 2"; 9 is a "step [that] doesn't suit the phase", detail "phase". The phase
/// after the step.
pub(crate) fn judge_phase(phase: u32, step: Step) -> Result<u32, Refusal> {
    if phase > RUNNING {
        return damaged();
    }
    match next_phase(phase, step) {
        Some(next) => Ok(next),
        None => refused(9, phase),
    }
}

/// "Release 0→0, Fetch 0→1, Start 1→2, Complete 2→0; the other eight pairs are refused."
fn next_phase(phase: u32, step: Step) -> Option<u32> {
    match (phase, step) {
        (IDLE, Step::Release) => Some(IDLE),
        (IDLE, Step::Fetch) => Some(FETCHED),
        (FETCHED, Step::Start) => Some(RUNNING),
        (RUNNING, Step::Complete) => Some(IDLE),
        _ => None,
    }
}

/// 8: "a damaged word", detail 0.
pub(crate) fn damaged<T>() -> Result<T, Refusal> {
    refused(8, 0)
}

/// The word at this place; one that isn't there counts as damaged, but no place is outside its list once 1 and the earlier
/// words have passed.
pub(crate) fn at<T: Copy>(list: &[T], place: usize) -> Result<T, Refusal> {
    list.get(place).copied().map_or_else(damaged, Ok)
}

/// A word as a number below `bound`; "head or tail ≥ K; ring, buffer, held or successor word ≥ N; […] pointer ≥ P" are
/// damaged, and so is a "cursor not below the successor count".
pub(crate) fn number_below(word: u32, bound: usize) -> Result<usize, Refusal> {
    let number = word as usize;
    if number >= bound {
        return damaged();
    }
    Ok(number)
}

/// The word at this place as a number below `bound`.
pub(crate) fn below(list: &[u32], place: usize, bound: usize) -> Result<usize, Refusal> {
    number_below(at(list, place)?, bound)
}

pub(crate) fn set(list: &mut [u32], place: usize, value: u32) {
    if let Some(found) = list.get_mut(place) {
        *found = value;
    }
}

/// A counter of at most 2^30 and a weight of at most 65,535 stay within 32 bits.
pub(crate) fn add(counters: &mut [i32], place: usize, weight: i64) {
    if let Some(counter) = counters.get_mut(place) {
        *counter = i32::try_from(i64::from(*counter) + weight).unwrap_or(*counter);
    }
}

/// "A ring keeps a count beside head and tail and holds K tasks"; zeroed, it is empty.
#[derive(Clone, Copy, Default)]
pub(crate) struct Ends {
    pub head: usize,
    pub tail: usize,
    count: usize,
}

impl Ends {
    /// The ends of this ring, all three words of them.
    ///
    /// Damaged are a "head or tail ≥ K", and "A count over K, or head plus count not leading to tail modulo K".
    pub fn read(words: &[u32], ring: usize, k: usize) -> Result<Ends, Refusal> {
        let head = below(words, END_WORDS * ring + HEAD, k)?;
        let tail = below(words, END_WORDS * ring + TAIL, k)?;
        let count = at(words, END_WORDS * ring + COUNT)? as usize;
        if count > k || (head + count) % k != tail {
            return damaged();
        }
        Ok(Ends { head, tail, count })
    }

    pub fn write(self, words: &mut [u32], ring: usize) {
        set(words, END_WORDS * ring + HEAD, word(self.head));
        set(words, END_WORDS * ring + TAIL, word(self.tail));
        set(words, END_WORDS * ring + COUNT, word(self.count));
    }

    /// "empty is count 0"
    fn is_empty(self) -> bool {
        self.count == 0
    }

    /// "full is count K"
    pub fn is_full(self, k: usize) -> bool {
        self.count == k
    }

    /// A task joins at the tail, "the next free slot".
    pub fn appended(self, k: usize) -> Ends {
        Ends {
            tail: (self.tail + 1) % k,
            count: self.count + 1,
            ..self
        }
    }

    /// The task at the head, "the next slot to take", is taken.
    pub fn taken(self, k: usize) -> Ends {
        Ends {
            head: (self.head + 1) % k,
            count: self.count - 1,
            ..self
        }
    }
}

/// P workers with rings of K slots.
#[derive(Clone, Copy)]
pub(crate) struct Rings {
    pub p: usize,
    pub k: usize,
}

impl Rings {
    /// "the ring of owner i filled by worker j begins at (i·P + j)·K": the number that stands before "·K" there, which is
    /// also the number of its triple of ends and of its counter ("same place rule").
    pub fn ring(self, owner: usize, filler: usize) -> usize {
        owner * self.p + filler
    }

    /// "scan the rings of owner i from the ring pointer upward, modulo P; the scan stops at the first ring that isn't
    /// empty": its filler and its ends.
    pub fn first_waiting(self, ends: &[u32], owner: usize, pointer: u32) -> Result<Option<(usize, Ends)>, Refusal> {
        let pointer = number_below(pointer, self.p)?;
        for passed in 0..self.p {
            let filler = (pointer + passed) % self.p;
            let found = Ends::read(ends, self.ring(owner, filler), self.k)?;
            if !found.is_empty() {
                return Ok(Some((filler, found)));
            }
        }
        Ok(None)
    }

    /// "the first ring filled by i that isn't full, owners taken j, j+1, … modulo P": its owner and its ends.
    pub fn first_free(self, ends: &[u32], filler: usize, target: usize) -> Result<Option<(usize, Ends)>, Refusal> {
        for passed in 0..self.p {
            let owner = (target + passed) % self.p;
            let found = Ends::read(ends, self.ring(owner, filler), self.k)?;
            if !found.is_full(self.k) {
                return Ok(Some((owner, found)));
            }
        }
        Ok(None)
    }

    /// "the worker with the least sum of its P counters, the lowest number on equal sums"; the least of all workers is
    /// looked for, so all P·P counters are read.
    pub fn target(self, counters: &[i32]) -> Result<usize, Refusal> {
        let mut least = (i64::MAX, 0);
        for worker in 0..self.p {
            let mut sum = 0;
            for filler in 0..self.p {
                sum += counter(counters, self.ring(worker, filler))?;
            }
            if sum < least.0 {
                least = (sum, worker);
            }
        }
        Ok(least.1)
    }
}

/// Damaged is a "weight over 65,535".
pub(crate) fn weight(weights: &[u32], task: usize) -> Result<u32, Refusal> {
    let weight = at(weights, task)?;
    if weight > MAX_WEIGHT {
        return damaged();
    }
    Ok(weight)
}

/// Damaged is a "counter beyond ±2^30".
pub(crate) fn counter(counters: &[i32], ring: usize) -> Result<i64, Refusal> {
    let counter = i64::from(at(counters, ring)?);
    if counter.abs() > COUNTER_BOUND {
        return damaged();
    }
    Ok(counter)
}

/// Damaged is a "degree to be lowered outside 1..N".
pub(crate) fn degree(degrees: &[u32], task: usize, n: usize) -> Result<u32, Refusal> {
    let degree = at(degrees, task)?;
    if !(1..=n).contains(&(degree as usize)) {
        return damaged();
    }
    Ok(degree)
}

/// The task's first place in the successors and the one behind its last; damaged is a "successor range without
/// start t ≤ start t+1 ≤ E".
pub(crate) fn successor_range(succ_starts: &[u32], task: usize, e: usize) -> Result<(usize, usize), Refusal> {
    let first = at(succ_starts, task)? as usize;
    let end = at(succ_starts, task + 1)? as usize;
    if first > end || end > e {
        return damaged();
    }
    Ok((first, end))
}

/// Damaged are "buffer places (where one is read, both are) not read ≤ write ≤ N".
pub(crate) fn buffer_places(read: u32, write: u32, n: usize) -> Result<(usize, usize), Refusal> {
    let (read, write) = (read as usize, write as usize);
    if read > write || write > n {
        return damaged();
    }
    Ok((read, write))
}

/// Where a task joins the buffer; damaged is "write N where a task must join".
pub(crate) fn write_place(read: u32, write: u32, n: usize) -> Result<usize, Refusal> {
    let (_, write) = buffer_places(read, write, n)?;
    if write == n {
        return damaged();
    }
    Ok(write)
}

/// The entries recorded, where one more has to join: "Complete meets 12 before its other words"; entries over the most that there
/// can be are damaged, as many are 12.
pub(crate) fn entries(run: &[u32], place: usize, most: usize) -> Result<usize, Refusal> {
    let entries = at(run, place)? as usize;
    if entries > most {
        return damaged();
    }
    if entries == most {
        return refused(12, 0);
    }
    Ok(entries)
}

/// "the accepted word is read last of all, after 10 to 12"; damaged is one that is the number of all steps or more.
pub(crate) fn accepted(run: &[u32], place: usize, all_steps: usize) -> Result<u32, Refusal> {
    let accepted = at(run, place)?;
    if accepted as usize >= all_steps {
        return damaged();
    }
    Ok(accepted)
}
