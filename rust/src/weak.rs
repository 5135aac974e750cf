//! Weak jobs in the words of No. 6 of document 02: begin and the four steps. Where No. 6 says nothing, document 01 and the
//! requests before No. 6 hold, by the very functions of the plain model. Each rule reads all its words first and writes only after
//! the last of them, so that a refused call has written nothing.
//!
//! "A seam can be corrected with each finished neighbour alone, the weak dependency of source document 000. A job may be begun
//! weak as a whole, with calls of its own."

mod memory;

pub use memory::{
    Memory, COPY_WORDS, CURSOR, ENTRY_WORDS, HELD_PRED, HELD_TASK, PHASE, POINTER, READ, ROOTS, ROW_WORDS, RUN_WORDS,
    UNFIXED, WRITE,
};

use crate::engine::words::{self, add, at, below, damaged, number_below, set, Ends, Rings};
use crate::engine::{begin as plain, Engine, Limits};
use crate::memory::{Lists, Step, ACCEPTED, END_WORDS, ENTRIES, NIL};
use crate::model::{refused, word, Answer, Refusal};

/// The engine of this file.
pub const MODEL: Engine<Memory> = Engine {
    name: "weak model",
    begin,
    step,
};

/// "copies (task, predecessor), two words each […]; a root has one copy with NIL".
#[derive(Clone, Copy, Debug, PartialEq, Eq, PartialOrd, Ord)]
pub struct Copied {
    pub task: u32,
    /// NIL in a root's copy.
    pub pred: u32,
}

/// What an accepted step answers.
///
/// "Release always makes one copy and answers it with its owner; Fetch answers the copy." "Begin, Start and Complete answer
/// acceptance alone".
#[derive(Clone, Copy, Debug, PartialEq, Eq)]
pub enum Outcome {
    Moved,
    Fetched { copy: Copied },
    Placed { copy: Copied, owner: u32 },
}

impl Copied {
    /// The words of a slot or of a hand: a "ring, […] held […] word ≥ N" is damaged, NIL among them, and "a predecessor word neither
    /// NIL nor below N is damaged".
    fn judge(words: [u32; COPY_WORDS], n: usize) -> Result<Copied, Refusal> {
        let [task, pred] = words;
        number_below(task, n)?;
        if pred != NIL {
            number_below(pred, n)?;
        }
        Ok(Copied { task, pred })
    }

    fn words(self) -> [u32; COPY_WORDS] {
        [self.task, self.pred]
    }
}

/// P and K, and N and E of the lent lists.
#[derive(Clone, Copy)]
struct Sizes {
    n: usize,
    e: usize,
    p: usize,
    k: usize,
}

impl Sizes {
    fn of(memory: &Memory, p: usize, k: usize) -> Sizes {
        let (n, e) = (memory.n(), memory.e());
        Sizes { n, e, p, k }
    }

    /// 1: "a lent length isn't the stated one", detail 0; "Each length is exact."
    ///
    /// As in document 01, but "N lent words" for the fixed workers, rings of copies, "Records have three words per copy […],
    /// length 3(E + N)", and "A third run word".
    fn judge_lengths(self, memory: &Memory) -> Answer {
        let Sizes { n, e, p, k } = self;
        let lengths = [
            (memory.pred_starts.len(), n + 1),
            (memory.succ_starts.len(), n + 1),
            (memory.succs.len(), e),
            (memory.degrees.len(), n),
            (memory.fixed.len(), n),
            (memory.rings.len(), p * p * k),
            (memory.ends.len(), END_WORDS * p * p),
            (memory.counters.len(), p * p),
            (memory.buffers.len(), p * n),
            (memory.executed.len(), ENTRY_WORDS * (e + n)),
            (memory.run.len(), RUN_WORDS),
            (memory.rows.len(), p),
        ];
        if lengths.iter().any(|(lent, stated)| lent != stated) {
            return refused(1, 0);
        }
        Ok(())
    }

    fn rings(self) -> Rings {
        let Sizes { p, k, .. } = self;
        Rings { p, k }
    }
}

/// Begin by the engine.
pub fn begin(memory: &mut Memory, p: usize, k: usize) -> Answer {
    begin_within(Limits::ENGINE, memory, p, k)
}

/// A step by the engine.
pub fn step(memory: &mut Memory, p: usize, k: usize, worker: u32, step: Step) -> Result<Outcome, Refusal> {
    step_within(Limits::ENGINE, memory, p, k, worker, step)
}

/// Begin by a caller with these limits: "Order in begin: 2, 1, 3, 4, 5, 6", the graph and the roots judged as in a plain job.
pub fn begin_within(limits: Limits, memory: &mut Memory, p: usize, k: usize) -> Answer {
    let sizes = Sizes::of(memory, p, k);
    let graph = plain::graph(&memory.weights, &memory.pred_starts, &memory.preds);
    let roots = plain::judge(limits, &graph, sizes.rings(), || sizes.judge_lengths(memory))?;
    clear(memory);

    // "Successors are filled, degrees are numbers of predecessors", but "a root being begun with degree 1"
    let (succs, degrees) = plain::linked(&graph);
    (memory.succ_starts, memory.succs) = (succs.starts, succs.words);
    memory.degrees = degrees;
    for &root in &roots {
        set(&mut memory.degrees, root, 1);
    }

    // "root number m, from 0, goes to the ring of owner and filler m mod P, and its weight to that counter", "a root has one copy
    // with NIL"
    let Memory {
        weights,
        rings,
        ends,
        counters,
        ..
    } = memory;
    let made = |task| Copied { task, pred: NIL }.words();
    let workers = plain::deal_roots(sizes.rings(), &roots, weights, (rings, ends, counters), made);

    // "The first copy of a task picks its ring as in document 01 and fixes the task's worker"
    for (&root, &worker) in roots.iter().zip(&workers) {
        set(&mut memory.fixed, root, word(worker));
    }
    // "A third run word […] keeps R"
    set(&mut memory.run, ROOTS, word(roots.len()));
    Ok(())
}

/// "Everything is zeroed but weights and the predecessor tables", the fixed workers "65,535 before", and "an empty hand NIL twice".
fn clear(memory: &mut Memory) {
    memory.succ_starts.fill(0);
    memory.succs.fill(0);
    memory.degrees.fill(0);
    memory.fixed.fill(UNFIXED);
    memory.rings.fill([0; COPY_WORDS]);
    memory.ends.fill(0);
    memory.counters.fill(0);
    memory.buffers.fill(0);
    memory.executed.fill(0);
    memory.run.fill(0);
    let mut row = [0; ROW_WORDS];
    (row[HELD_TASK], row[HELD_PRED]) = (NIL, NIL);
    memory.rows.fill(row);
}

/// A step by a caller with these limits: "In a step: 2, 1, 7, phase word (8), 9; then the step's rule is followed from its
/// first sentence".
pub fn step_within(
    limits: Limits,
    memory: &mut Memory,
    p: usize,
    k: usize,
    worker: u32,
    step: Step,
) -> Result<Outcome, Refusal> {
    let sizes = Sizes::of(memory, p, k);
    limits.judge(sizes.n, sizes.e, p, k)?;
    sizes.judge_lengths(memory)?;
    if worker as usize >= p {
        return refused(7, worker);
    }
    let mut call = Call {
        memory,
        sizes,
        worker: worker as usize,
    };
    let next = words::judge_phase(call.row_word(PHASE)?, step)?;
    match step {
        Step::Fetch => call.fetch(next),
        Step::Start => call.start(next),
        Step::Complete => call.complete(next),
        Step::Release => call.release(next),
    }
}

/// The ring that a copy joins.
struct Place {
    owner: usize,
    ring: usize,
    ends: Ends,
    /// "Weight joins with the first copy": none with a later one.
    joins: Option<u32>,
}

/// The weight that leaves when "the last one completes the task", and the buffer place that the task joins, "if it has
/// successors".
struct Completed {
    weight: u32,
    joins: Option<usize>,
}

/// A step of a worker below P, on lists of the stated lengths.
struct Call<'a> {
    memory: &'a mut Memory,
    sizes: Sizes,
    worker: usize,
}

impl Call<'_> {
    /// **Fetch** by i: as in a plain job, but "Fetch answers the copy". The weight stays until "the last copy completes".
    fn fetch(&mut self, next: u32) -> Result<Outcome, Refusal> {
        let Sizes { n, k, p, .. } = self.sizes;
        let rings = self.sizes.rings();
        let pointer = self.row_word(POINTER)?;
        let Some((filler, ends)) = rings.first_waiting(&self.memory.ends, self.worker, pointer)? else {
            return refused(10, 0);
        };
        let ring = rings.ring(self.worker, filler);
        let copy = Copied::judge(at(&self.memory.rings, ring * k + ends.head)?, n)?;
        let accepted = self.accepted()?;

        // "Take its head, which becomes the held task; the slot's word stays." "Its rings and hands hold copies"
        ends.taken(k).write(&mut self.memory.ends, ring);
        self.set_hand(copy.words());
        // "The pointer becomes the ring after, modulo P."
        self.set_row(POINTER, word((filler + 1) % p));
        self.accept(next, accepted);
        Ok(Outcome::Fetched { copy })
    }

    /// **Start**: "the phase alone."
    fn start(&mut self, next: u32) -> Result<Outcome, Refusal> {
        let accepted = self.accepted()?;
        self.accept(next, accepted);
        Ok(Outcome::Moved)
    }

    /// **Complete**: "(task, i) joins the record", here "(task, predecessor, worker)"; "held becomes NIL", here "NIL twice".
    ///
    /// "A copy's Complete alone lowers the degree […], and the last one completes the task."
    fn complete(&mut self, next: u32) -> Result<Outcome, Refusal> {
        let n = self.sizes.n;
        // "R (over N is damaged), read just before either other", so before the entries word too
        let roots = self.roots()?;
        // "12, the finish and the limits of the entries and accepted words follow these counts"
        let entries = words::entries(&self.memory.run, ENTRIES, self.memory.all_copies(roots))?;
        let copy = Copied::judge([self.row_word(HELD_TASK)?, self.row_word(HELD_PRED)?], n)?;
        let task = copy.task as usize;
        let left = words::degree(&self.memory.degrees, task, n)? - 1;
        let completed = if left == 0 { Some(self.completed(task)?) } else { None };
        let accepted = self.accepted()?;

        let entry = [copy.task, copy.pred, word(self.worker)];
        for (place, value) in entry.into_iter().enumerate() {
            set(&mut self.memory.executed, ENTRY_WORDS * entries + place, value);
        }
        set(&mut self.memory.run, ENTRIES, word(entries + 1));
        set(&mut self.memory.degrees, task, left);
        if let Some(Completed { weight, joins }) = completed {
            // "Weight […] leaves when the last copy completes", from "counter (i, i), which may go below zero"
            let own = self.own_counter();
            add(&mut self.memory.counters, own, -i64::from(weight));
            if let Some(write) = joins {
                set(&mut self.memory.buffers, self.worker * n + write, copy.task);
                self.set_row(WRITE, word(write + 1));
            }
        }
        self.set_hand([NIL, NIL]);
        self.accept(next, accepted);
        Ok(Outcome::Moved)
    }

    /// What the task's last copy reads: "the weight leaves counter (i, i) at Complete" (No. 3); "the task joins i's completed
    /// buffer if it has successors".
    fn completed(&self, task: usize) -> Result<Completed, Refusal> {
        let Sizes { n, e, .. } = self.sizes;
        let weight = words::weight(&self.memory.weights, task)?;
        words::counter(&self.memory.counters, self.own_counter())?;
        let (first, end) = words::successor_range(&self.memory.succ_starts, task, e)?;
        let joins = if first < end {
            Some(words::write_place(self.row_word(READ)?, self.row_word(WRITE)?, n)?)
        } else {
            None
        };
        Ok(Completed { weight, joins })
    }

    /// **Release** by i: "the oldest task in i's buffer, its successor s at the cursor." "Release always makes one copy and
    /// answers it with its owner". "A copy's Complete alone lowers the degree", so that none is read here.
    fn release(&mut self, next: u32) -> Result<Outcome, Refusal> {
        let Sizes { n, e, k, .. } = self.sizes;
        let (read, write) = words::buffer_places(self.row_word(READ)?, self.row_word(WRITE)?, n)?;
        if read == write {
            return refused(10, 0);
        }
        let task = below(&self.memory.buffers, self.worker * n + read, n)?;
        let (first, end) = words::successor_range(&self.memory.succ_starts, task, e)?;
        let cursor = number_below(self.row_word(CURSOR)?, end - first)?;
        let successor = below(&self.memory.succs, first + cursor, n)?;
        let Place {
            owner,
            ring,
            ends,
            joins,
        } = self.place(successor)?;
        let accepted = self.accepted()?;

        // "copies (task, predecessor)": the successor and the task that is released
        let copy = Copied {
            task: word(successor),
            pred: word(task),
        };
        if let Some(slot) = self.memory.rings.get_mut(ring * k + ends.tail) {
            *slot = copy.words();
        }
        ends.appended(k).write(&mut self.memory.ends, ring);
        if let Some(weight) = joins {
            // "The weight joins the counter of the ring really used", whose owner is the worker fixed
            add(&mut self.memory.counters, ring, i64::from(weight));
            set(&mut self.memory.fixed, successor, word(owner));
        }
        // "The cursor advances; after the last successor it returns to 0 and the read place advances."
        if first + cursor + 1 < end {
            self.set_row(CURSOR, word(cursor + 1));
        } else {
            self.set_row(CURSOR, 0);
            self.set_row(READ, word(read + 1));
        }
        self.accept(next, accepted);
        let owner = word(owner);
        Ok(Outcome::Placed { copy, owner })
    }

    /// "The first copy of a task picks its ring as in document 01 and fixes the task's worker (N lent words, 65,535 before, else
    /// below P or damaged); later copies go only to that worker's ring, and 11 is given exactly if that ring is full."
    fn place(&self, successor: usize) -> Result<Place, Refusal> {
        match at(&self.memory.fixed, successor)? {
            UNFIXED => self.first_place(successor),
            fixed => self.later_place(successor, number_below(fixed, self.sizes.p)?),
        }
    }

    /// "target j is the worker with the least sum of its P counters […]; s is appended to the first ring filled by i that isn't
    /// full, owners taken j, j+1, … modulo P."
    ///
    /// 11: "all P rings filled by this worker are full", detail "the successor". "Weight joins with the first copy": it is read
    /// where a ring is used.
    fn first_place(&self, successor: usize) -> Result<Place, Refusal> {
        let rings = self.sizes.rings();
        let target = rings.target(&self.memory.counters)?;
        let Some((owner, ends)) = rings.first_free(&self.memory.ends, self.worker, target)? else {
            return refused(11, word(successor));
        };
        let joins = Some(words::weight(&self.memory.weights, successor)?);
        let ring = rings.ring(owner, self.worker);
        Ok(Place {
            owner,
            ring,
            ends,
            joins,
        })
    }

    /// "later copies go only to that worker's ring, and 11 is given exactly if that ring is full": of its rings the one filled by
    /// the caller, no other ring and no counter being read.
    fn later_place(&self, successor: usize, owner: usize) -> Result<Place, Refusal> {
        let rings = self.sizes.rings();
        let ring = rings.ring(owner, self.worker);
        let ends = Ends::read(&self.memory.ends, ring, rings.k)?;
        if ends.is_full(rings.k) {
            return refused(11, word(successor));
        }
        let joins = None;
        Ok(Place {
            owner,
            ring,
            ends,
            joins,
        })
    }

    /// "counter (i, i)"
    fn own_counter(&self) -> usize {
        self.sizes.rings().ring(self.worker, self.worker)
    }

    fn row_word(&self, field: usize) -> Result<u32, Refusal> {
        let row = at(&self.memory.rows, self.worker)?;
        at(&row, field)
    }

    fn set_row(&mut self, field: usize, value: u32) {
        if let Some(row) = self.memory.rows.get_mut(self.worker) {
            set(row, field, value);
        }
    }

    /// "Its rings and hands hold copies (task, predecessor), two words each, an empty hand NIL twice".
    fn set_hand(&mut self, [task, pred]: [u32; COPY_WORDS]) {
        self.set_row(HELD_TASK, task);
        self.set_row(HELD_PRED, pred);
    }

    /// "keeps R (over N is damaged)"
    fn roots(&self) -> Result<usize, Refusal> {
        let roots = at(&self.memory.run, ROOTS)? as usize;
        if roots > self.sizes.n {
            return damaged();
        }
        Ok(roots)
    }

    /// "the accepted word is read last of all, after 10 to 12", R "just before"; damaged is an accepted word of 4E + 3R or more.
    fn accepted(&self) -> Result<u32, Refusal> {
        let roots = self.roots()?;
        words::accepted(&self.memory.run, ACCEPTED, self.memory.all_steps(roots))
    }

    /// "Each accepted step adds 1 to the accepted word", and the phase becomes the table's.
    fn accept(&mut self, next: u32, accepted: u32) {
        self.set_row(PHASE, next);
        set(&mut self.memory.run, ACCEPTED, accepted + 1);
    }
}
