//! The promises of weak jobs by brute force: a run is watched through its calls and answers alone, its copies lying in lists as
//! Algorithm 1 of source document 000 has them, and any two finished records of one graph are turned into each other. What is found
//! wrong is answered as a sentence.

use crate::demand3::{check_counters, ensure, play_watched, sorted_preds, Edges, Found, Watched};
use crate::engine::Engine;
use crate::memory::{Step, NIL};
use crate::model::Refusal;
use crate::runs::{Call, Case};
use crate::weak::{Copied, Memory, Outcome, UNFIXED};
use std::collections::VecDeque;

/// The copies of a graph and what comes before what.
///
/// "Demand 3 then speaks of copies, each recorded once: a copy stays behind all copies of its predecessor, and copies of one task
/// may pass each other."
#[derive(Clone, Debug, PartialEq, Eq)]
pub struct Copies {
    /// Each task's predecessors, rising.
    preds: Vec<Vec<u32>>,
    /// Every copy, rising: of each task one for each predecessor, of a root one with NIL.
    all: Vec<Copied>,
    /// Where each task's copies begin in these.
    first: Vec<usize>,
    /// The copies as tasks of a graph in which all copies of a predecessor come before a copy.
    edges: Edges,
}

impl Copies {
    /// The copies of tables that a begin has accepted; the order of a task's predecessors doesn't count.
    pub fn of(memory: &Memory) -> Copies {
        Copies::of_lists(sorted_preds(&memory.pred_starts, &memory.preds))
    }

    fn of_lists(preds: Vec<Vec<u32>>) -> Copies {
        let mut all = Vec::new();
        let mut first = Vec::new();
        for (task, list) in preds.iter().enumerate() {
            first.push(all.len());
            let copy = |pred| Copied {
                task: task as u32,
                pred,
            };
            // "a root has one copy with NIL"
            let of_task = if list.is_empty() { &[NIL][..] } else { list };
            all.extend(of_task.iter().map(|&pred| copy(pred)));
        }
        first.push(all.len());
        let before = |copy: &Copied| match copy.pred {
            NIL => Vec::new(),
            pred => (first[pred as usize] as u32..first[pred as usize + 1] as u32).collect(),
        };
        let edges = Edges::of_lists(all.iter().map(before).collect());
        Copies {
            preds,
            all,
            first,
            edges,
        }
    }

    /// "E + R copies"
    pub fn count(&self) -> usize {
        self.all.len()
    }

    /// How many copies this task has.
    fn of_task(&self, task: usize) -> usize {
        self.first[task + 1] - self.first[task]
    }

    fn e(&self) -> usize {
        self.preds.iter().map(Vec::len).sum()
    }

    fn roots(&self) -> impl Iterator<Item = usize> + '_ {
        (0..self.preds.len()).filter(|&task| self.preds[task].is_empty())
    }

    /// Each task's successors, rising.
    fn successors(&self) -> Vec<Vec<u32>> {
        let mut all = vec![Vec::new(); self.preds.len()];
        for (task, list) in self.preds.iter().enumerate() {
            list.iter().for_each(|&pred| all[pred as usize].push(task as u32));
        }
        all
    }

    /// The copies by their numbers; none if one of them isn't of the graph.
    fn numbers(&self, list: &[Copied]) -> Option<Vec<u32>> {
        let number = |copy| self.all.binary_search(copy).ok().map(|number| number as u32);
        list.iter().map(number).collect()
    }

    /// Whether the list holds every copy once, "behind all copies of its predecessor".
    pub fn allow(&self, list: &[Copied]) -> bool {
        self.numbers(list).is_some_and(|numbers| self.edges.allow(&numbers))
    }

    /// Turns one list into the other by exchanging neighbours that no chain of copies orders, "one exchange for each pair that the
    /// two order differently", every list on the way being allowed; answers how many exchanges it took.
    pub fn join(&self, first: &[Copied], second: &[Copied]) -> Found<usize> {
        let numbers = |list| {
            self.numbers(list)
                .ok_or_else(|| format!("a copy that isn't of the graph in {list:?}"))
        };
        self.edges.join(&numbers(first)?, &numbers(second)?)
    }
}

/// A copy in a ring.
#[derive(Clone, Copy)]
struct Waiting {
    copy: Copied,
    /// The number of its owner's accepted fetches by which it has to be taken.
    deadline: usize,
}

/// What a worker has in its hand.
#[derive(Clone, Copy, PartialEq, Eq)]
enum Hand {
    Empty,
    Fetched(Copied),
    Running(Copied),
}

/// A weak job's run.
struct Watch {
    p: usize,
    k: usize,
    weights: Vec<u32>,
    copies: Copies,
    succs: Vec<Vec<u32>>,
    accepted: usize,
    /// The accepted fetches of each worker.
    fetches: Vec<usize>,
    /// The ring of each owner and filler, that of owner i filled by j at i·P + j.
    rings: Vec<VecDeque<Waiting>>,
    hands: Vec<Hand>,
    /// The completed tasks of each worker that have successors left to release, and how many of the oldest one's are.
    buffers: Vec<VecDeque<u32>>,
    cursors: Vec<usize>,
    fixed: Vec<Option<usize>>,
    /// The completed copies of each task.
    done: Vec<usize>,
    /// One entry for each accepted Complete.
    record: Vec<(Copied, u32)>,
}

impl Watch {
    /// The copy joins the ring, its place in it saying when it has to be taken.
    ///
    /// "A task with p tasks ahead of it in its ring is therefore taken within (p+1)·P accepted fetches of its owner."
    fn join(&mut self, owner: usize, filler: usize, copy: Copied) {
        let ring = &mut self.rings[owner * self.p + filler];
        let deadline = self.fetches[owner] + (ring.len() + 1) * self.p;
        ring.push_back(Waiting { copy, deadline });
    }

    fn r(&self) -> usize {
        self.copies.roots().count()
    }

    fn is_complete(&self, task: usize) -> bool {
        self.done[task] == self.copies.of_task(task)
    }

    /// "A worker's counters add up to the weight of the tasks fixed to it and not complete."
    fn weight_of(&self, worker: usize) -> i64 {
        let tasks = (0..self.weights.len()).filter(|&task| self.fixed[task] == Some(worker) && !self.is_complete(task));
        tasks.map(|task| i64::from(self.weights[task])).sum()
    }

    /// "fetch a task-copy from the head of" one of the worker's lists, none that waits for it being late.
    fn saw_fetch(&mut self, i: usize, copy: Copied) -> Found<()> {
        self.fetches[i] += 1;
        let fetches = self.fetches[i];
        let p = self.p;
        let own = &mut self.rings[i * p..(i + 1) * p];
        let late = own.iter().flatten().find(|waiting| waiting.deadline < fetches);
        ensure(late.is_none(), || {
            format!("worker {i} passes over a copy for more than (p+1)·P fetches")
        })?;
        let from = own
            .iter_mut()
            .find(|ring| ring.front().is_some_and(|head| head.copy == copy));
        let from = from.ok_or_else(|| format!("{copy:?} isn't at the head of a ring of worker {i}"))?;
        from.pop_front();
        for (ahead, waiting) in from.iter_mut().enumerate() {
            waiting.deadline = waiting.deadline.min(fetches + (ahead + 1) * p);
        }
        self.hands[i] = Hand::Fetched(copy);
        Ok(())
    }

    /// "A copy's Complete alone lowers the degree […], and the last one completes the task."
    fn saw_complete(&mut self, i: usize, copy: Copied) {
        let task = copy.task as usize;
        self.hands[i] = Hand::Empty;
        self.record.push((copy, i as u32));
        self.done[task] += 1;
        if self.is_complete(task) && !self.succs[task].is_empty() {
            self.buffers[i].push_back(copy.task);
        }
    }

    /// The copy that the worker would make next, if it has one to make.
    fn next_copy(&self, i: usize) -> Option<Copied> {
        let &pred = self.buffers[i].front()?;
        let task = self.succs[pred as usize][self.cursors[i]];
        Some(Copied { task, pred })
    }

    /// "The first copy of a task picks its ring as in document 01 and fixes the task's worker […]; later copies go only to that
    /// worker's ring": the owner; none if 11 is due.
    fn owner_due(&self, i: usize, task: usize) -> Option<usize> {
        let is_free = |&owner: &usize| self.rings[owner * self.p + i].len() < self.k;
        if let Some(fixed) = self.fixed[task] {
            return Some(fixed).filter(is_free);
        }
        let least = (0..self.p).min_by_key(|&worker| self.weight_of(worker)).unwrap_or(0);
        (0..self.p).map(|passed| (least + passed) % self.p).find(is_free)
    }

    fn saw_release(&mut self, i: usize, copy: Copied, owner: usize) -> Found<()> {
        ensure(self.next_copy(i) == Some(copy), || {
            format!("worker {i} has no {copy:?} to make")
        })?;
        let due = self.owner_due(i, copy.task as usize);
        ensure(due == Some(owner), || {
            format!("{copy:?} goes to worker {owner}, where {due:?} is due")
        })?;
        self.fixed[copy.task as usize] = Some(owner);
        self.join(owner, i, copy);
        self.cursors[i] += 1;
        if self.cursors[i] == self.succs[copy.pred as usize].len() {
            self.cursors[i] = 0;
            self.buffers[i].pop_front();
        }
        Ok(())
    }

    /// "The record begins with one entry for each of these Completes, in their order": here the copy that the worker's last accepted
    /// Fetch before it answered, and that worker.
    fn check_record(&self, memory: &Memory) -> Found<()> {
        let words = self
            .record
            .iter()
            .flat_map(|&(copy, worker)| [copy.task, copy.pred, worker]);
        let recorded = memory.executed.iter().copied().take(3 * self.record.len());
        ensure(words.eq(recorded), || format!("the record is {:?}", memory.executed))
    }
}

impl Watched<Memory> for Watch {
    type Finished = Finished;

    /// "root number m, from 0, goes to the ring of owner and filler m mod P"; its copy is the first one, which "fixes the task's
    /// worker".
    fn begun(memory: &Memory, p: usize, k: usize) -> Watch {
        let copies = Copies::of(memory);
        let n = memory.weights.len();
        let mut watch = Watch {
            p,
            k,
            weights: memory.weights.clone(),
            succs: copies.successors(),
            accepted: 0,
            fetches: vec![0; p],
            rings: vec![VecDeque::new(); p * p],
            hands: vec![Hand::Empty; p],
            buffers: vec![VecDeque::new(); p],
            cursors: vec![0; p],
            fixed: vec![None; n],
            done: vec![0; n],
            record: Vec::new(),
            copies,
        };
        let roots: Vec<usize> = watch.copies.roots().collect();
        for (m, &root) in roots.iter().enumerate() {
            let copy = Copied {
                task: root as u32,
                pred: NIL,
            };
            watch.fixed[root] = Some(m % p);
            watch.join(m % p, m % p, copy);
        }
        watch
    }

    /// "12, the finish […] follow these counts": "E + R copies".
    fn is_finished(&self) -> bool {
        self.record.len() == self.copies.count()
    }

    fn saw(&mut self, worker: u32, step: Step, outcome: Outcome, memory: &Memory) -> Found<()> {
        let i = worker as usize;
        self.accepted += 1;
        match (step, outcome, self.hands[i]) {
            (Step::Fetch, Outcome::Fetched { copy }, Hand::Empty) => self.saw_fetch(i, copy),
            (Step::Start, Outcome::Moved, Hand::Fetched(copy)) => {
                self.hands[i] = Hand::Running(copy);
                Ok(())
            }
            (Step::Complete, Outcome::Moved, Hand::Running(copy)) => {
                self.saw_complete(i, copy);
                self.check_record(memory)
            }
            (Step::Release, Outcome::Placed { copy, owner }, Hand::Empty) => self.saw_release(i, copy, owner as usize),
            _ => Err(format!("{step:?} of worker {i} answers {outcome:?}")),
        }
    }

    /// A refused call: "A call with another P or K than begin's meets 2 or 1", and a step refuses under the conditions of the table
    /// alone, of which no word of an honest run is damaged and no record full.
    fn saw_refusal(&self, call: Call, refusal: Refusal) -> Found<()> {
        let Refusal { number, detail } = refusal;
        let wrong = || format!("{call:?} is refused with {number}, {detail}");
        let (p, k, step) = match call {
            Call::Begin { p, k } => (p, k, None),
            Call::Step { p, k, worker, step } => (p, k, Some((worker, step))),
            Call::Write { .. } | Call::Lend { .. } => return Ok(()),
        };
        if (p, k) != (self.p, self.k) {
            return ensure([1, 2].contains(&number), wrong);
        }
        // begin's own P and K with begin's own tables would be accepted
        let (worker, step) = step.ok_or_else(wrong)?;
        let i = worker as usize;
        if i >= p {
            return ensure((number, detail) == (7, worker), wrong);
        }
        let phase = match self.hands[i] {
            Hand::Empty => 0,
            Hand::Fetched(_) => 1,
            Hand::Running(_) => 2,
        };
        let due = match (step, phase) {
            (Step::Fetch, 0) if self.rings[i * p..(i + 1) * p].iter().all(VecDeque::is_empty) => Some((10, 0)),
            (Step::Release, 0) => match self.next_copy(i) {
                None => Some((10, 0)),
                Some(copy) if self.owner_due(i, copy.task as usize).is_none() => Some((11, copy.task)),
                Some(_) => None,
            },
            (Step::Fetch, 0) | (Step::Start, 1) | (Step::Complete, 2) => None,
            _ => Some((9, phase)),
        };
        ensure(due == Some((number, detail)), wrong)
    }

    /// "After every list of a run's calls the accepted word is the number of its accepted steps, the entries word that of its
    /// accepted Completes." "A third run word […] keeps R". "A worker's counters add up to the weight of the tasks fixed to it and
    /// not complete."
    fn check_words(&self, memory: &Memory) -> Found<()> {
        let (entries, accepted) = (self.record.len(), self.accepted);
        let run_right = memory.run == [entries, accepted, self.r()].map(|word| word as u32);
        ensure(run_right, || {
            format!("run words {:?} after {entries} and {accepted}", memory.run)
        })?;
        check_counters(&memory.counters, self.p, |worker| self.weight_of(worker))?;
        let fixed = self
            .fixed
            .iter()
            .map(|fixed| fixed.map_or(UNFIXED, |worker| worker as u32));
        ensure(fixed.eq(memory.fixed.iter().copied()), || {
            format!("the fixed workers are {:?}", memory.fixed)
        })?;
        let left = (0..self.done.len()).map(|task| (self.copies.of_task(task) - self.done[task]) as u32);
        ensure(left.eq(memory.degrees.iter().copied()), || {
            format!("the degrees are {:?}", memory.degrees)
        })
    }

    /// "With R roots a run has 4E + 3R accepted steps", and its record holds each copy once, "behind all copies of its
    /// predecessor".
    fn finished(&self) -> Found<Finished> {
        let (accepted, all) = (self.accepted, 4 * self.copies.e() + 3 * self.r());
        ensure(accepted == all, || format!("{accepted} accepted steps, not {all}"))?;
        let order: Vec<Copied> = self.record.iter().map(|&(copy, _)| copy).collect();
        ensure(self.copies.allow(&order), || {
            format!("the graph doesn't allow the record {order:?}")
        })?;
        let copies = self.copies.clone();
        Ok(Finished { copies, order })
    }
}

/// A finished run's copies, and these in the order of the record.
#[derive(Clone, Debug)]
pub struct Finished {
    pub copies: Copies,
    pub order: Vec<Copied>,
}

/// Plays an honest case and checks all that is promised of one run, after each call; an accepted begin starts another run. The
/// finished runs are answered.
pub fn play(engine: &Engine<Memory>, case: &Case<Memory>) -> Found<Vec<Finished>> {
    play_watched::<Memory, Watch>(|_| engine, case)
}
