//! Weak calls beside the model's: both make the same calls, and after each call the answers and every word of every lent list are
//! compared, with guard words around the lists that the other engine is lent.

use crate::beside::{add_up, compare_guarded, Between, Counts, GuardedLists, Guards};
use crate::engine::Engine;
use crate::memory::Step;
use crate::model::{Answer, Refusal};
use crate::plain_weak::Lent;
use crate::runs::{Call, Case, Reply};
use crate::weak::{Memory, Outcome, COPY_WORDS, ROW_WORDS};

/// Weak calls that are lent slices, and those, mostly the model's, that they have to be like.
#[derive(Clone, Copy)]
pub struct Side {
    pub beside: Engine<Memory>,
    pub begin: fn(&mut Lent, usize, usize) -> Answer,
    pub step: fn(&mut Lent, usize, usize, u32, Step) -> Result<Outcome, Refusal>,
}

/// A weak job's lists.
struct Guarded {
    lists: GuardedLists<[u32; COPY_WORDS], ROW_WORDS>,
    fixed: Between<u32>,
}

impl Guards<Memory> for Guarded {
    fn of(memory: &mut Memory, guard: u32) -> Guarded {
        let Lent { lists, fixed } = Lent::of(memory);
        Guarded {
            lists: GuardedLists::between(lists, guard, [guard; COPY_WORDS]),
            fixed: Between::of(fixed, guard),
        }
    }

    fn differing(&self, memory: &mut Memory) -> Option<&'static str> {
        let Lent { lists, fixed } = Lent::of(memory);
        let differs = (!self.fixed.holds(fixed)).then_some("fixed workers");
        self.lists.part_from(lists).or(differs)
    }
}

impl Guarded {
    fn lent(&mut self) -> Lent<'_> {
        Lent {
            lists: self.lists.lent(),
            fixed: self.fixed.list(),
        }
    }
}

/// The side's answer; what isn't a call of the job is made on the model's memory alone.
fn reply(side: &Side, call: Call, guarded: &mut Guarded) -> Reply<Outcome> {
    match call {
        Call::Begin { p, k } => Reply::Begun((side.begin)(&mut guarded.lent(), p, k)),
        Call::Step { p, k, worker, step } => Reply::Stepped((side.step)(&mut guarded.lent(), p, k, worker, step)),
        Call::Write { .. } | Call::Lend { .. } => Reply::Changed,
    }
}

/// Makes the calls of the case with the model and with the side, whose guards are this word; says at which call they part.
pub fn compare(case: &Case<Memory>, side: &Side, guard: u32) -> Result<Counts, String> {
    let made = |_, call, guarded: &mut Guarded| reply(side, call, guarded);
    compare_guarded(case, |_| side.beside, made, guard)
}

/// Compares the cases, with guards that differ from one to the next: a large word, and some that a rule would take for sound.
///
/// # Panics
///
/// If the two part, or if the cases meet one of these numbers, 0 for acceptance, less than `least` times.
pub fn compare_all(cases: impl Iterator<Item = (u64, Case<Memory>)>, side: &Side, numbers: &[usize], least: usize) {
    let compared = |(seed, case): (u64, Case<Memory>), guard| (seed, compare(&case, side, guard));
    add_up(cases, compared, numbers, least);
}
