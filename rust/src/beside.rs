//! An engine beside the model: both make the same calls, and after each call the answers and every word of every lent list
//! are compared, with guard words around the lists that the other engine is lent.

use crate::engine::Engine;
use crate::memory::{Lists, Memory, Outcome, Step, ROW_WORDS};
use crate::model::{Answer, Refusal};
use crate::plain_engine::{Lent, LentLists};
use crate::runs::{Call, Case, Reply};
use std::fmt::Debug;

/// Elements before and after each lent list, which no call may touch.
const GUARDS: usize = 16;

/// An engine that is lent slices, and the one, mostly the model, that it has to be like.
#[derive(Clone, Copy)]
pub struct Side {
    pub beside: Engine,
    pub begin: fn(&mut Lent, usize, usize) -> Answer,
    pub step: fn(&mut Lent, usize, usize, u32, Step) -> Result<Outcome, Refusal>,
}

/// How often each number was answered, at 0 the accepted calls.
pub type Counts = [usize; 13];

/// All that begin and the steps may answer: acceptance and the numbers of the table.
pub const ANSWERS: [usize; 13] = [0, 1, 2, 3, 4, 5, 6, 7, 8, 9, 10, 11, 12];
/// What a step may answer on lists of the stated lengths, from a worker below P.
pub const STEP_ANSWERS: [usize; 6] = [0, 8, 9, 10, 11, 12];

/// A lent list between guards that are all the same.
pub(crate) struct Between<T> {
    elements: Vec<T>,
    guard: T,
}

impl<T: Copy + PartialEq> Between<T> {
    pub fn of(list: &[T], guard: T) -> Between<T> {
        let guards = [guard; GUARDS];
        let elements = [&guards, list, &guards].concat();
        Between { elements, guard }
    }

    pub fn list(&mut self) -> &mut [T] {
        let end = self.elements.len() - GUARDS;
        &mut self.elements[GUARDS..end]
    }

    /// Whether the list is this one and all guards are as they were.
    pub fn holds(&self, list: &[T]) -> bool {
        let end = self.elements.len() - GUARDS;
        let (before, rest) = self.elements.split_at(GUARDS);
        let (found, after) = rest.split_at(end - GUARDS);
        found == list && before.iter().chain(after).all(|&element| element == self.guard)
    }
}

/// All lists that a call is lent, each between guards.
pub(crate) trait Guards<M> {
    fn of(memory: &mut M, guard: u32) -> Self;

    /// The first list that isn't the memory's, or whose guards are touched.
    fn differing(&self, memory: &mut M) -> Option<&'static str>;
}

/// The lists that both families have.
pub(crate) struct GuardedLists<T, const ROW_WORDS: usize> {
    weights: Between<u32>,
    pred_starts: Between<u32>,
    preds: Between<u32>,
    succ_starts: Between<u32>,
    succs: Between<u32>,
    degrees: Between<u32>,
    rings: Between<T>,
    ends: Between<u32>,
    counters: Between<i32>,
    buffers: Between<u32>,
    executed: Between<u32>,
    run: Between<u32>,
    rows: Between<[u32; ROW_WORDS]>,
}

impl<T: Copy + PartialEq, const ROW_WORDS: usize> GuardedLists<T, ROW_WORDS> {
    /// The guards of the rings are of their items.
    pub fn between(lists: LentLists<T, ROW_WORDS>, guard: u32, item: T) -> GuardedLists<T, ROW_WORDS> {
        let words = |list: &[u32]| Between::of(list, guard);
        GuardedLists {
            weights: words(lists.weights),
            pred_starts: words(lists.pred_starts),
            preds: words(lists.preds),
            succ_starts: words(lists.succ_starts),
            succs: words(lists.succs),
            degrees: words(lists.degrees),
            rings: Between::of(lists.rings, item),
            ends: words(lists.ends),
            counters: Between::of(lists.counters, guard as i32),
            buffers: words(lists.buffers),
            executed: words(lists.executed),
            run: words(lists.run),
            rows: Between::of(lists.rows, [guard; ROW_WORDS]),
        }
    }

    /// The first list that isn't the one lent, or whose guards are touched.
    pub fn part_from(&self, lists: LentLists<T, ROW_WORDS>) -> Option<&'static str> {
        let lists = [
            ("weights", self.weights.holds(lists.weights)),
            ("predecessor starts", self.pred_starts.holds(lists.pred_starts)),
            ("predecessors", self.preds.holds(lists.preds)),
            ("successor starts", self.succ_starts.holds(lists.succ_starts)),
            ("successors", self.succs.holds(lists.succs)),
            ("degrees", self.degrees.holds(lists.degrees)),
            ("rings", self.rings.holds(lists.rings)),
            ("ends", self.ends.holds(lists.ends)),
            ("counters", self.counters.holds(lists.counters)),
            ("buffers", self.buffers.holds(lists.buffers)),
            ("record", self.executed.holds(lists.executed)),
            ("run words", self.run.holds(lists.run)),
            ("rows", self.rows.holds(lists.rows)),
        ];
        lists.iter().find(|(_, holds)| !holds).map(|&(name, _)| name)
    }

    pub fn lent(&mut self) -> LentLists<'_, T, ROW_WORDS> {
        LentLists {
            weights: self.weights.list(),
            pred_starts: self.pred_starts.list(),
            preds: self.preds.list(),
            succ_starts: self.succ_starts.list(),
            succs: self.succs.list(),
            degrees: self.degrees.list(),
            rings: self.rings.list(),
            ends: self.ends.list(),
            counters: self.counters.list(),
            buffers: self.buffers.list(),
            executed: self.executed.list(),
            run: self.run.list(),
            rows: self.rows.list(),
        }
    }
}

/// A plain job's lists.
type Guarded = GuardedLists<u32, ROW_WORDS>;

impl Guards<Memory> for Guarded {
    fn of(memory: &mut Memory, guard: u32) -> Guarded {
        Guarded::between(Lent::of(memory), guard, guard)
    }

    fn differing(&self, memory: &mut Memory) -> Option<&'static str> {
        self.part_from(Lent::of(memory))
    }
}

/// The engine's answer; what isn't the engine's call is made on the model's memory alone.
fn reply(side: &Side, call: Call, guarded: &mut Guarded) -> Reply {
    match call {
        Call::Begin { p, k } => Reply::Begun((side.begin)(&mut guarded.lent(), p, k)),
        Call::Step { p, k, worker, step } => Reply::Stepped((side.step)(&mut guarded.lent(), p, k, worker, step)),
        Call::Write { .. } | Call::Lend { .. } => Reply::Changed,
    }
}

/// Makes the calls of the case with the model and with the side, whose guards are this word; says at which call they part.
pub fn compare(case: &Case, side: &Side, guard: u32) -> Result<Counts, String> {
    compare_by(case, |_| side, guard)
}

/// The same where the call at each place is made by the side named for it, on the lists that the calls before it left.
pub fn compare_by<'a>(case: &Case, side_of: impl Fn(usize) -> &'a Side, guard: u32) -> Result<Counts, String> {
    let beside = |place| side_of(place).beside;
    compare_guarded(
        case,
        beside,
        |place, call, guarded: &mut Guarded| reply(side_of(place), call, guarded),
        guard,
    )
}

/// The same for either kind of job: the calls are made with the engines named for their places, and beside them on guarded lists.
pub(crate) fn compare_guarded<M: Lists, G: Guards<M>>(
    case: &Case<M>,
    beside: impl Fn(usize) -> Engine<M>,
    reply: impl Fn(usize, Call, &mut G) -> Reply<M::Outcome>,
    guard: u32,
) -> Result<Counts, String>
where
    M::Outcome: Debug + PartialEq,
{
    let mut memory = case.memory.clone();
    let mut guarded = G::of(&mut memory, guard);
    let mut counts = Counts::default();
    for (place, &call) in case.calls.iter().enumerate() {
        let engine = beside(place);
        let expected = call.make(&engine, &mut memory);
        let found = reply(place, call, &mut guarded);
        if found != expected {
            let name = engine.name;
            return Err(format!(
                "call {place}, {call:?}: {found:?}, where the {name} has {expected:?}"
            ));
        }
        if expected == Reply::Changed {
            // the lists were equal before it, so they are lent anew
            guarded = G::of(&mut memory, guard);
            continue;
        }
        if let Some(list) = guarded.differing(&mut memory) {
            return Err(format!("call {place}, {call:?}, {expected:?}: the {list} differ"));
        }
        counts[expected.refusal().map_or(0, |refusal| refusal.number as usize)] += 1;
    }
    Ok(counts)
}

/// Compares the cases, with guards that differ from one to the next: a large word, and some that a rule would take for sound.
///
/// # Panics
///
/// If the two engines part, or if the cases meet one of these numbers, 0 for acceptance, less than `least` times.
pub fn compare_all(cases: impl Iterator<Item = (u64, Case)>, side: &Side, numbers: &[usize], least: usize) {
    let compared = |(seed, case): (u64, Case), guard| (seed, compare(&case, side, guard));
    add_up(cases, compared, numbers, least);
}

/// Compares the cases by a function that is handed each with its guards' word.
///
/// # Panics
///
/// As `compare_all` does.
pub fn add_up<T>(
    cases: impl Iterator<Item = T>,
    compared: impl Fn(T, u32) -> (u64, Result<Counts, String>),
    numbers: &[usize],
    least: usize,
) {
    let mut all = Counts::default();
    for (case, &guard) in cases.zip([0xfeed_beef, 0, 1, 3].iter().cycle()) {
        let (seed, counts) = compared(case, guard);
        let counts = counts.unwrap_or_else(|parted| panic!("case {seed}: {parted}"));
        all.iter_mut().zip(counts).for_each(|(sum, count)| *sum += count);
    }
    for &number in numbers {
        let count = all[number];
        assert!(count >= least, "number {number} is met {count} times");
    }
}
