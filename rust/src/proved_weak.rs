//! The proved weak calls, called through their exports.

use crate::engine::Engine;
use crate::exports::{declare, Reply};
use crate::memory::Step;
use crate::model::Refusal;
use crate::plain_weak::Lent;
use crate::weak::{Memory, Outcome, COPY_WORDS, ROW_WORDS};
use crate::weak_exports::{call_weak, StepReply};

/// The proved weak calls, lent the lists of a `Memory`.
pub const PROVED: Engine<Memory> = Engine {
    name: "proved weak",
    begin: |memory, p, k| begin(&mut Lent::of(memory), p, k),
    step: |memory, p, k, worker, which| step(&mut Lent::of(memory), p, k, worker, which),
};

declare! {
    [u32; COPY_WORDS], [u32; ROW_WORDS]:

    yolluvek_weak_begin(
        succ_starts: mut, succs: mut, degrees: mut, fixed: mut, rings: mut,
        ends: mut, counters: mut, buffers: mut, executed: mut,
    ) -> Reply;
    yolluvek_weak_fetch(
        succ_starts: const, succs: const, degrees: const, fixed: const, rings: const,
        ends: mut, counters: const, buffers: const, executed: const,
        worker: u32,
    ) -> StepReply;
    yolluvek_weak_start(
        succ_starts: const, succs: const, degrees: const, fixed: const, rings: const,
        ends: const, counters: const, buffers: const, executed: const,
        worker: u32,
    ) -> StepReply;
    yolluvek_weak_complete(
        succ_starts: const, succs: const, degrees: mut, fixed: const, rings: const,
        ends: const, counters: mut, buffers: mut, executed: mut,
        worker: u32,
    ) -> StepReply;
    yolluvek_weak_release(
        succ_starts: const, succs: const, degrees: const, fixed: mut, rings: mut,
        ends: mut, counters: mut, buffers: const, executed: const,
        worker: u32,
    ) -> StepReply;
}

// Each is inlined, so that a program that calls other exports alone needs no archive of these.

#[inline]
pub fn begin(lent: &mut Lent, p: usize, k: usize) -> Result<(), Refusal> {
    call_weak!(yolluvek_weak_begin, lent, p, k).into()
}

#[inline]
pub fn step(lent: &mut Lent, p: usize, k: usize, worker: u32, step: Step) -> Result<Outcome, Refusal> {
    match step {
        Step::Fetch => fetch(lent, p, k, worker),
        Step::Start => start(lent, p, k, worker),
        Step::Complete => complete(lent, p, k, worker),
        Step::Release => release(lent, p, k, worker),
    }
}

#[inline]
pub fn fetch(lent: &mut Lent, p: usize, k: usize, worker: u32) -> Result<Outcome, Refusal> {
    call_weak!(yolluvek_weak_fetch, lent, p, k, worker).into()
}

#[inline]
pub fn start(lent: &mut Lent, p: usize, k: usize, worker: u32) -> Result<Outcome, Refusal> {
    call_weak!(yolluvek_weak_start, lent, p, k, worker).into()
}

#[inline]
pub fn complete(lent: &mut Lent, p: usize, k: usize, worker: u32) -> Result<Outcome, Refusal> {
    call_weak!(yolluvek_weak_complete, lent, p, k, worker).into()
}

#[inline]
pub fn release(lent: &mut Lent, p: usize, k: usize, worker: u32) -> Result<Outcome, Refusal> {
    call_weak!(yolluvek_weak_release, lent, p, k, worker).into()
}
