//! Demand 3 by brute force: a run is watched through its calls and answers alone, and any two finished records of one graph
//! are turned into each other. What is found wrong is answered as a sentence.

use crate::engine::Engine;
use crate::memory::{Lists, Memory, Outcome, Step};
use crate::model::Refusal;
use crate::runs::{Call, Case, Reply};

/// What is wrong, if anything.
pub(crate) type Found<T> = Result<T, String>;

pub(crate) fn ensure(holds: bool, wrong: impl FnOnce() -> String) -> Found<()> {
    if holds {
        Ok(())
    } else {
        Err(wrong())
    }
}

/// "A counter always lies within ±67,107,840 in an honest run."
const COUNTERS: std::ops::RangeInclusive<i32> = -67_107_840..=67_107_840;

/// Each task's predecessors, rising, of tables that a begin has accepted.
pub(crate) fn sorted_preds(starts: &[u32], preds: &[u32]) -> Vec<Vec<u32>> {
    let sorted = |pair: &[u32]| {
        let mut list = preds[pair[0] as usize..pair[1] as usize].to_vec();
        list.sort_unstable();
        list
    };
    starts.windows(2).map(sorted).collect()
}

/// The edges of a graph as each task's predecessors.
///
/// "an edge leads from a predecessor to its task."
#[derive(Clone, Debug, PartialEq, Eq)]
pub struct Edges(Vec<Vec<u32>>);

impl Edges {
    pub(crate) fn of_lists(lists: Vec<Vec<u32>>) -> Edges {
        Edges(lists)
    }

    /// The edges of tables that a begin has accepted; "Two runs are of one graph if N and the edges agree", so the order of
    /// a task's predecessors doesn't count.
    pub fn of(memory: &Memory) -> Edges {
        Edges(sorted_preds(&memory.pred_starts, &memory.preds))
    }

    /// "It allows a list that holds each of the N tasks once, after all its predecessors."
    pub fn allow(&self, list: &[u32]) -> bool {
        let mut passed = vec![false; self.0.len()];
        for &task in list {
            let Some(preds) = self.0.get(task as usize) else {
                return false;
            };
            if passed[task as usize] || !preds.iter().all(|&pred| passed[pred as usize]) {
                return false;
            }
            passed[task as usize] = true;
        }
        passed.iter().all(|&each| each)
    }

    /// "The graph orders two tasks if a path of edges leads from one to the other": all pairs (from, to) with a path.
    fn paths(&self) -> Vec<Vec<bool>> {
        let n = self.0.len();
        let mut leads = vec![vec![false; n]; n];
        for (to, row) in (0..n).map(|to| (to, self.before(to))) {
            row.into_iter().for_each(|from| leads[from][to] = true);
        }
        leads
    }

    /// All tasks with a path to this one.
    fn before(&self, task: usize) -> Vec<usize> {
        let mut reached = vec![false; self.0.len()];
        let mut waiting = vec![task];
        while let Some(next) = waiting.pop() {
            for &pred in &self.0[next] {
                if !std::mem::replace(&mut reached[pred as usize], true) {
                    waiting.push(pred as usize);
                }
            }
        }
        (0..reached.len()).filter(|&from| reached[from]).collect()
    }

    /// Turns one order into the other by exchanging neighbours, and answers how many exchanges it took.
    ///
    /// "one task order becomes the other by exchanging neighbours that the graph doesn't order, one exchange for each pair
    /// that the two order differently, every list on the way being an order the graph allows."
    pub fn join(&self, first: &[u32], second: &[u32]) -> Found<usize> {
        ensure(self.allow(first), || format!("the graph doesn't allow {first:?}"))?;
        ensure(self.allow(second), || format!("the graph doesn't allow {second:?}"))?;
        let leads = self.paths();
        let place = places(second);
        let mut list = first.to_vec();
        let mut exchanges = 0;
        while let Some(at) = list
            .windows(2)
            .position(|pair| place[pair[0] as usize] > place[pair[1] as usize])
        {
            let (left, right) = (list[at] as usize, list[at + 1] as usize);
            let free = !leads[left][right] && !leads[right][left];
            ensure(free, || format!("the graph orders {left} and {right}"))?;
            list.swap(at, at + 1);
            exchanges += 1;
            ensure(self.allow(&list), || {
                format!("the graph doesn't allow {list:?} on the way")
            })?;
        }
        ensure(list == second, || format!("the exchanges end at {list:?}"))?;
        let pairs = ordered_differently(first, second);
        ensure(exchanges == pairs, || {
            format!("{exchanges} exchanges for {pairs} pairs")
        })?;
        Ok(exchanges)
    }
}

/// Where each task stands in an order.
fn places(order: &[u32]) -> Vec<usize> {
    let mut place = vec![0; order.len()];
    order
        .iter()
        .enumerate()
        .for_each(|(at, &task)| place[task as usize] = at);
    place
}

/// "Two lists order a pair differently if the task that comes first in one comes second in the other".
fn ordered_differently(first: &[u32], second: &[u32]) -> usize {
    let (one, other) = (places(first), places(second));
    let differs = |s: usize, t: usize| (one[s] < one[t]) != (other[s] < other[t]);
    let n = one.len();
    (0..n).map(|s| (s + 1..n).filter(|&t| differs(s, t)).count()).sum()
}

/// A run from an accepted begin on, as its calls and answers tell it.
pub(crate) trait Watched<M: Lists>: Sized {
    /// What a finished run is answered as.
    type Finished;

    fn begun(memory: &M, p: usize, k: usize) -> Self;

    fn is_finished(&self) -> bool;

    /// An accepted step with its answer, and the memory after it.
    fn saw(&mut self, worker: u32, step: Step, outcome: M::Outcome, memory: &M) -> Found<()>;

    /// A refused call, which has written nothing.
    fn saw_refusal(&self, _: Call, _: Refusal) -> Found<()> {
        Ok(())
    }

    /// What the lent words have to say after each call.
    fn check_words(&self, memory: &M) -> Found<()>;

    fn finished(&self) -> Found<Self::Finished>;
}

/// "A worker's counters then add up to" this weight, and each of them lies within its bounds.
pub(crate) fn check_counters(counters: &[i32], p: usize, weight_of: impl Fn(usize) -> i64) -> Found<()> {
    for worker in 0..p {
        let own = &counters[worker * p..(worker + 1) * p];
        let sum: i64 = own.iter().map(|&counter| i64::from(counter)).sum();
        let weight = weight_of(worker);
        ensure(sum == weight, || {
            format!("counters of worker {worker} add up to {sum}, not {weight}")
        })?;
    }
    ensure(counters.iter().all(|counter| COUNTERS.contains(counter)), || {
        String::from("a counter beyond ±67,107,840")
    })
}

/// "in an unfinished one some worker has a step that would be accepted next": all are tried. In a finished one none is; with N 0
/// "begun is finished".
fn check_next<M: Lists>(engine: &Engine<M>, memory: &M, p: usize, k: usize, is_finished: bool) -> Found<()> {
    let mut scratch = memory.clone();
    let mut accepted = |worker: usize, step| (engine.step)(&mut scratch, p, k, worker as u32, step).is_ok();
    let some = (0..p).any(|worker| Step::ALL.iter().any(|&step| accepted(worker, step)));
    match (some, is_finished) {
        (true, true) => Err(String::from("a step would be accepted in a finished run")),
        (false, false) => Err(String::from("no step would be accepted in an unfinished run")),
        _ => Ok(()),
    }
}

/// A plain job's run.
struct Watch {
    p: usize,
    weights: Vec<u32>,
    edges: Edges,
    e: usize,
    accepted: usize,
    /// What each worker has in its hand: the task that its last accepted Fetch answered, until its Complete.
    fetched: Vec<Option<u32>>,
    /// The tasks that wait for each worker.
    waiting: Vec<Vec<u32>>,
    /// One entry for each accepted Complete: task and worker.
    record: Vec<[u32; 2]>,
}

impl Watch {
    fn n(&self) -> usize {
        self.weights.len()
    }

    /// "the weight waiting for it plus that in its hand"
    fn weight_of(&self, worker: usize) -> i64 {
        let tasks = self.waiting[worker].iter().chain(&self.fetched[worker]);
        tasks.map(|&task| i64::from(self.weights[task as usize])).sum()
    }
}

impl Watched<Memory> for Watch {
    type Finished = Finished;

    /// "root number m, from 0, goes to the ring of owner and filler m mod P".
    fn begun(memory: &Memory, p: usize, _: usize) -> Watch {
        let edges = Edges::of(memory);
        let mut waiting = vec![Vec::new(); p];
        let roots = (0..edges.0.len()).filter(|&task| edges.0[task].is_empty());
        roots.enumerate().for_each(|(m, task)| waiting[m % p].push(task as u32));
        Watch {
            p,
            weights: memory.weights.clone(),
            e: memory.e(),
            edges,
            accepted: 0,
            fetched: vec![None; p],
            waiting,
            record: Vec::new(),
        }
    }

    /// "The run is finished once N of its Completes are accepted".
    fn is_finished(&self) -> bool {
        self.record.len() == self.n()
    }

    fn saw(&mut self, worker: u32, step: Step, outcome: Outcome, _: &Memory) -> Found<()> {
        let i = worker as usize;
        self.accepted += 1;
        match (step, outcome) {
            (Step::Fetch, Outcome::Fetched { task }) => {
                let at = self.waiting[i].iter().position(|&each| each == task);
                let at = at.ok_or_else(|| format!("task {task} doesn't wait for worker {i}"))?;
                self.waiting[i].remove(at);
                self.fetched[i] = Some(task);
            }
            (Step::Start, Outcome::Moved) => {}
            (Step::Complete, Outcome::Moved) => {
                let task = self.fetched[i].take();
                let task = task.ok_or_else(|| format!("worker {i} completes what it hasn't fetched"))?;
                self.record.push([task, worker]);
            }
            (Step::Release, Outcome::DegreeLeft { degree }) => {
                ensure(degree > 0, || String::from("a degree of 0 is left"))?;
            }
            (Step::Release, Outcome::Placed { task, owner }) => {
                let waiting = self.waiting.get_mut(owner as usize);
                waiting.ok_or_else(|| format!("owner {owner}"))?.push(task);
            }
            _ => return Err(format!("{step:?} answers {outcome:?}")),
        }
        Ok(())
    }

    /// "After every list of a run's calls the accepted word is the number of its accepted steps, the entries word that of
    /// its accepted Completes. The record begins with one entry for each of these Completes, in their order". "A worker's
    /// counters then add up to the weight waiting for it plus that in its hand".
    fn check_words(&self, memory: &Memory) -> Found<()> {
        let (entries, accepted) = (self.record.len(), self.accepted);
        let run_right = memory.run == [entries as u32, accepted as u32];
        ensure(run_right, || {
            format!("run words {:?} after {entries} and {accepted}", memory.run)
        })?;
        ensure(memory.executed.starts_with(&self.record.concat()), || {
            format!("the record isn't {:?}", self.record)
        })?;
        check_counters(&memory.counters, self.p, |worker| self.weight_of(worker))
    }

    /// "with N tasks and E edges a finished run has exactly 3N + E accepted steps and a record that holds every task once,
    /// after all its predecessors".
    fn finished(&self) -> Found<Finished> {
        let (accepted, all) = (self.accepted, 3 * self.n() + self.e);
        ensure(accepted == all, || format!("{accepted} accepted steps, not {all}"))?;
        let order: Vec<u32> = self.record.iter().map(|entry| entry[0]).collect();
        ensure(self.edges.allow(&order), || {
            format!("the graph doesn't allow the record {order:?}")
        })?;
        let edges = self.edges.clone();
        Ok(Finished { edges, order })
    }
}

/// A finished run's graph and its tasks in the order of the record.
#[derive(Clone, Debug)]
pub struct Finished {
    pub edges: Edges,
    pub order: Vec<u32>,
}

/// Plays an honest case and checks all that demand 3 says of one run, after each call; an accepted begin starts another
/// run. The finished runs are answered.
pub fn play(engine: &Engine, case: &Case) -> Found<Vec<Finished>> {
    play_by(|_| engine, case)
}

/// The same where the call at each place is made by the engine named for it. An engine whose call is accepted has a next step too.
pub fn play_by<'a>(engine_of: impl Fn(usize) -> &'a Engine, case: &Case) -> Found<Vec<Finished>> {
    play_watched::<Memory, Watch>(engine_of, case)
}

/// The same for either kind of job.
pub(crate) fn play_watched<'a, M: Lists, W: Watched<M>>(
    engine_of: impl Fn(usize) -> &'a Engine<M>,
    case: &Case<M>,
) -> Found<Vec<W::Finished>> {
    ensure(case.is_honest(), || {
        String::from("something but the engine writes its memory")
    })?;
    let mut memory = case.memory.clone();
    let mut before = memory.clone();
    // with the P and K of its begin
    let mut watch: Option<(W, usize, usize)> = None;
    let mut finished = Vec::new();
    for (place, &call) in case.calls.iter().enumerate() {
        let engine = engine_of(place);
        let reply = call.make(engine, &mut memory);
        if let Some(refusal) = reply.refusal() {
            ensure(memory == before, || format!("{call:?} is refused and writes"))?;
            if let Some((run, ..)) = &watch {
                run.saw_refusal(call, refusal)?;
            }
            continue;
        }
        before.clone_from(&memory);
        match (call, reply, &mut watch) {
            (Call::Begin { p, k }, _, _) => watch = Some((W::begun(&memory, p, k), p, k)),
            (Call::Step { worker, step, .. }, Reply::Stepped(Ok(outcome)), Some((run, ..))) => {
                ensure(!run.is_finished(), || format!("{step:?} is accepted in a finished run"))?;
                run.saw(worker, step, outcome, &memory)?
            }
            // "A run starts at an accepted begin": nothing is said of what is before it
            _ => {}
        }
        let Some((run, p, k)) = &watch else { continue };
        run.check_words(&memory)?;
        check_next(engine, &memory, *p, *k, run.is_finished())?;
        if run.is_finished() {
            finished.push(run.finished()?);
        }
    }
    Ok(finished)
}
