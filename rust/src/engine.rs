//! Begin and the four steps in the words of document 01, and of document 02 where it changes them. Each rule reads all its
//! words first and writes only after the last of them, so that a refused call has written nothing.

pub(crate) mod begin;
pub(crate) mod words;

pub use begin::begin_within;

use crate::memory::{
    Lists, Memory, Outcome, Step, ACCEPTED, CURSOR, END_WORDS, ENTRIES, HELD, NIL, PHASE, POINTER, READ, WRITE,
};
use crate::model::{self, refused, word, Answer, Refusal};
use words::{add, at, below, number_below, set, Ends, Rings};

/// "P workers, numbered 0..P−1, P from 1 to 16."
pub const MAX_WORKERS: usize = 16;

/// "Each ring has K slots, K from 2 to 64."
pub const MIN_SLOTS: usize = 2;
pub const MAX_SLOTS: usize = 64;

/// An engine to be tried: its begin and its steps, for jobs whose calls are lent such a memory.
pub struct Engine<M: Lists = Memory> {
    pub name: &'static str,
    pub begin: fn(&mut M, usize, usize) -> Answer,
    pub step: Stepper<M>,
}

// not derived, as a memory needn't be copied for it
impl<M: Lists> Clone for Engine<M> {
    fn clone(&self) -> Engine<M> {
        *self
    }
}

impl<M: Lists> Copy for Engine<M> {}

/// A step with P, K and the worker.
pub type Stepper<M> = fn(&mut M, usize, usize, u32, Step) -> Result<<M as Lists>::Outcome, Refusal>;

/// The engine of this file.
pub const MODEL: Engine = Engine {
    name: "model",
    begin,
    step,
};

/// The preview of this file: the same calls with smaller limits.
///
/// "It has begin and the four steps, and takes N to 128, E to 512, P to 4, K to 8. Both call one core".
pub const PREVIEW: Engine = Engine {
    name: "model, preview",
    begin: |memory, p, k| begin_within(Limits::PREVIEW, memory, p, k),
    step: |memory, p, k, worker, which| step_within(Limits::PREVIEW, memory, p, k, worker, which),
};

/// A caller's limits on N, E, P and K; above the engine's they count as the engine's. Where a number begins, P from 1 and K
/// from 2, is the same for every caller.
#[derive(Clone, Copy, Debug)]
pub struct Limits {
    /// N and E.
    pub graph: model::Limits,
    /// P at most.
    pub workers: usize,
    /// K at most.
    pub slots: usize,
}

impl Limits {
    /// "N at most 1,024. E edges, at most 8,192", "P from 1 to 16", "K from 2 to 64".
    pub const ENGINE: Limits = Limits {
        graph: model::Limits::ENGINE,
        workers: MAX_WORKERS,
        slots: MAX_SLOTS,
    };

    /// "takes N to 128, E to 512, P to 4, K to 8"
    pub const PREVIEW: Limits = Limits {
        graph: model::Limits { tasks: 128, edges: 512 },
        workers: 4,
        slots: 8,
    };

    /// N at most.
    pub fn tasks(self) -> usize {
        self.graph.tasks as usize
    }

    /// E at most.
    pub fn edges(self) -> usize {
        self.graph.edges as usize
    }

    /// Whether N, E, P and K are within them.
    pub fn hold(self, n: usize, e: usize, p: usize, k: usize) -> bool {
        let workers = 1..=self.workers.min(MAX_WORKERS);
        let slots = MIN_SLOTS..=self.slots.min(MAX_SLOTS);
        workers.contains(&p) && slots.contains(&k) && self.graph.hold(n, e)
    }

    /// 2: "N, E, P, K […] beyond its limit", detail 0. "Beyond its limits the preview gives 2, in the same place."
    pub(crate) fn judge(self, n: usize, e: usize, p: usize, k: usize) -> Answer {
        if !self.hold(n, e, p, k) {
            return refused(2, 0);
        }
        Ok(())
    }
}

/// P and K, and N and E of the lent lists.
#[derive(Clone, Copy)]
struct Sizes {
    n: usize,
    e: usize,
    p: usize,
    k: usize,
}

impl Sizes {
    fn of(memory: &Memory, p: usize, k: usize) -> Sizes {
        let (n, e) = (memory.n(), memory.e());
        Sizes { n, e, p, k }
    }

    /// 1: "a lent length isn't the stated one", detail 0; "Each length is exact."
    ///
    /// Judged after 2, so that no product is large.
    fn judge_lengths(self, memory: &Memory) -> Answer {
        let Sizes { n, e, p, k } = self;
        let lengths = [
            (memory.pred_starts.len(), n + 1),
            (memory.succ_starts.len(), n + 1),
            (memory.succs.len(), e),
            (memory.degrees.len(), n),
            (memory.rings.len(), p * p * k),
            (memory.ends.len(), END_WORDS * p * p),
            (memory.counters.len(), p * p),
            (memory.buffers.len(), p * n),
            (memory.executed.len(), 2 * n),
            (memory.run.len(), 2),
            (memory.rows.len(), p),
        ];
        if lengths.iter().any(|(lent, stated)| lent != stated) {
            return refused(1, 0);
        }
        Ok(())
    }

    fn rings(self) -> Rings {
        let Sizes { p, k, .. } = self;
        Rings { p, k }
    }

    /// "3N+E"
    fn all_steps(self) -> usize {
        3 * self.n + self.e
    }
}

/// Begin by the engine.
pub fn begin(memory: &mut Memory, p: usize, k: usize) -> Answer {
    begin_within(Limits::ENGINE, memory, p, k)
}

/// A step by the engine.
pub fn step(memory: &mut Memory, p: usize, k: usize, worker: u32, step: Step) -> Result<Outcome, Refusal> {
    step_within(Limits::ENGINE, memory, p, k, worker, step)
}

/// A step by a caller with these limits: "In a step: 2, 1, 7, phase word (8), 9; then the step's rule is followed from its
/// first sentence".
pub fn step_within(
    limits: Limits,
    memory: &mut Memory,
    p: usize,
    k: usize,
    worker: u32,
    step: Step,
) -> Result<Outcome, Refusal> {
    let sizes = Sizes::of(memory, p, k);
    limits.judge(sizes.n, sizes.e, p, k)?;
    sizes.judge_lengths(memory)?;
    if worker as usize >= p {
        return refused(7, worker);
    }
    let mut call = Call {
        memory,
        sizes,
        worker: worker as usize,
    };
    let next = words::judge_phase(call.row_word(PHASE)?, step)?;
    match step {
        Step::Fetch => call.fetch(next),
        Step::Start => call.start(next),
        Step::Complete => call.complete(next),
        Step::Release => call.release(next),
    }
}

/// The ring that a placed task joins.
struct Place {
    owner: usize,
    ring: usize,
    ends: Ends,
    weight: u32,
}

/// A step of a worker below P, on lists of the stated lengths.
struct Call<'a> {
    memory: &'a mut Memory,
    sizes: Sizes,
    worker: usize,
}

impl Call<'_> {
    /// **Fetch** by i. The weight stays, so that neither weight nor counter is read.
    fn fetch(&mut self, next: u32) -> Result<Outcome, Refusal> {
        let Sizes { n, k, p, .. } = self.sizes;
        let rings = self.sizes.rings();
        let pointer = self.row_word(POINTER)?;
        let Some((filler, ends)) = rings.first_waiting(&self.memory.ends, self.worker, pointer)? else {
            return refused(10, 0);
        };
        let ring = rings.ring(self.worker, filler);
        let task = below(&self.memory.rings, ring * k + ends.head, n)?;
        let accepted = self.accepted()?;

        // "Take its head, which becomes the held task; the slot's word stays."
        ends.taken(k).write(&mut self.memory.ends, ring);
        self.set_row(HELD, word(task));
        // "The pointer becomes the ring after, modulo P."
        self.set_row(POINTER, word((filler + 1) % p));
        self.accept(next, accepted);
        Ok(Outcome::Fetched { task: word(task) })
    }

    /// **Start**: "the phase alone."
    fn start(&mut self, next: u32) -> Result<Outcome, Refusal> {
        let accepted = self.accepted()?;
        self.accept(next, accepted);
        Ok(Outcome::Moved)
    }

    /// **Complete**: "(task, i) joins the record; the task joins i's completed buffer if it has successors; held becomes
    /// NIL." "From now on the weight leaves counter (i, i) at Complete."
    fn complete(&mut self, next: u32) -> Result<Outcome, Refusal> {
        let n = self.sizes.n;
        // "entries over N" is damaged, N is 12
        let entries = words::entries(&self.memory.run, ENTRIES, n)?;
        // damaged is a "held […] word ≥ N", NIL among them
        let task = number_below(self.row_word(HELD)?, n)?;
        let weight = words::weight(&self.memory.weights, task)?;
        let own = self.sizes.rings().ring(self.worker, self.worker);
        words::counter(&self.memory.counters, own)?;
        let (first, end) = self.successor_range(task)?;
        let joins = if first < end {
            Some(words::write_place(self.row_word(READ)?, self.row_word(WRITE)?, n)?)
        } else {
            None
        };
        let accepted = self.accepted()?;

        set(&mut self.memory.executed, 2 * entries, word(task));
        set(&mut self.memory.executed, 2 * entries + 1, word(self.worker));
        set(&mut self.memory.run, ENTRIES, word(entries + 1));
        if let Some(write) = joins {
            set(&mut self.memory.buffers, self.worker * n + write, word(task));
            self.set_row(WRITE, word(write + 1));
        }
        // from "counter (i, i), which may go below zero", whichever ring the task came from
        add(&mut self.memory.counters, own, -i64::from(weight));
        self.set_row(HELD, NIL);
        self.accept(next, accepted);
        Ok(Outcome::Moved)
    }

    /// **Release** by i: "the oldest task in i's buffer, its successor s at the cursor. The degree of s falls by one."
    fn release(&mut self, next: u32) -> Result<Outcome, Refusal> {
        let n = self.sizes.n;
        let (read, write) = words::buffer_places(self.row_word(READ)?, self.row_word(WRITE)?, n)?;
        if read == write {
            return refused(10, 0);
        }
        let task = below(&self.memory.buffers, self.worker * n + read, n)?;
        let (first, end) = self.successor_range(task)?;
        let cursor = number_below(self.row_word(CURSOR)?, end - first)?;
        let successor = below(&self.memory.succs, first + cursor, n)?;
        let left = words::degree(&self.memory.degrees, successor, n)? - 1;
        let place = if left == 0 { Some(self.place(successor)?) } else { None };
        let accepted = self.accepted()?;

        set(&mut self.memory.degrees, successor, left);
        if let Some(place) = &place {
            self.append(successor, place);
        }
        // "The cursor advances; after the last successor it returns to 0 and the read place advances."
        if first + cursor + 1 < end {
            self.set_row(CURSOR, word(cursor + 1));
        } else {
            self.set_row(CURSOR, 0);
            self.set_row(READ, word(read + 1));
        }
        self.accept(next, accepted);
        Ok(match place {
            None => Outcome::DegreeLeft { degree: left },
            Some(Place { owner, .. }) => Outcome::Placed {
                task: word(successor),
                owner: word(owner),
            },
        })
    }

    /// "At zero, target j is the worker with the least sum of its P counters […]; s is appended to the first ring filled by
    /// i that isn't full, owners taken j, j+1, … modulo P."
    ///
    /// 11: "degree would be 0 and all P rings filled by this worker are full", detail "the successor". The weight is read
    /// where a ring is used.
    fn place(&self, successor: usize) -> Result<Place, Refusal> {
        let rings = self.sizes.rings();
        let target = rings.target(&self.memory.counters)?;
        let Some((owner, ends)) = rings.first_free(&self.memory.ends, self.worker, target)? else {
            return refused(11, word(successor));
        };
        let weight = words::weight(&self.memory.weights, successor)?;
        let ring = rings.ring(owner, self.worker);
        Ok(Place {
            owner,
            ring,
            ends,
            weight,
        })
    }

    /// "s is appended", and "The weight joins the counter of the ring really used."
    fn append(&mut self, successor: usize, place: &Place) {
        let k = self.sizes.k;
        set(
            &mut self.memory.rings,
            place.ring * k + place.ends.tail,
            word(successor),
        );
        place.ends.appended(k).write(&mut self.memory.ends, place.ring);
        add(&mut self.memory.counters, place.ring, i64::from(place.weight));
    }

    fn row_word(&self, field: usize) -> Result<u32, Refusal> {
        let row = at(&self.memory.rows, self.worker)?;
        at(&row, field)
    }

    fn set_row(&mut self, field: usize, value: u32) {
        if let Some(row) = self.memory.rows.get_mut(self.worker) {
            set(row, field, value);
        }
    }

    fn successor_range(&self, task: usize) -> Result<(usize, usize), Refusal> {
        words::successor_range(&self.memory.succ_starts, task, self.sizes.e)
    }

    /// Damaged is an "accepted word 3N+E or more".
    fn accepted(&self) -> Result<u32, Refusal> {
        words::accepted(&self.memory.run, ACCEPTED, self.sizes.all_steps())
    }

    /// "Each accepted step adds 1 to the accepted word", and the phase becomes the table's.
    fn accept(&mut self, next: u32, accepted: u32) {
        self.set_row(PHASE, next);
        set(&mut self.memory.run, ACCEPTED, accepted + 1);
    }
}
