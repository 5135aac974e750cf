//! The proved engine and the proved preview, called through their exports.

use crate::engine::Engine;
use crate::exports::{call, declare, Reply, StepReply};
use crate::memory::{Outcome, Step, ROW_WORDS};
use crate::model::Refusal;
use crate::plain_engine::Lent;

/// The proved engine, lent the lists of a `Memory`.
pub const PROVED: Engine = Engine {
    name: "proved",
    begin: |memory, p, k| begin(&mut Lent::of(memory), p, k),
    step: |memory, p, k, worker, which| step(&mut Lent::of(memory), p, k, worker, which),
};

declare! {
    u32, [u32; ROW_WORDS]:

    yolluvek_begin(
        succ_starts: mut, succs: mut, degrees: mut, rings: mut,
        ends: mut, counters: mut, buffers: mut, executed: mut,
    ) -> Reply;
    yolluvek_fetch(
        succ_starts: const, succs: const, degrees: const, rings: const,
        ends: mut, counters: const, buffers: const, executed: const,
        worker: u32,
    ) -> StepReply;
    yolluvek_start(
        succ_starts: const, succs: const, degrees: const, rings: const,
        ends: const, counters: const, buffers: const, executed: const,
        worker: u32,
    ) -> StepReply;
    yolluvek_complete(
        succ_starts: const, succs: const, degrees: const, rings: const,
        ends: const, counters: mut, buffers: mut, executed: mut,
        worker: u32,
    ) -> StepReply;
    yolluvek_release(
        succ_starts: const, succs: const, degrees: mut, rings: mut,
        ends: mut, counters: mut, buffers: const, executed: const,
        worker: u32,
    ) -> StepReply;
}

// Each is inlined, so that a program that calls other exports alone needs no archive of these.

#[inline]
pub fn begin(lent: &mut Lent, p: usize, k: usize) -> Result<(), Refusal> {
    call!(yolluvek_begin, lent, p, k).into()
}

#[inline]
pub fn step(lent: &mut Lent, p: usize, k: usize, worker: u32, step: Step) -> Result<Outcome, Refusal> {
    match step {
        Step::Fetch => fetch(lent, p, k, worker),
        Step::Start => start(lent, p, k, worker),
        Step::Complete => complete(lent, p, k, worker),
        Step::Release => release(lent, p, k, worker),
    }
}

#[inline]
pub fn fetch(lent: &mut Lent, p: usize, k: usize, worker: u32) -> Result<Outcome, Refusal> {
    call!(yolluvek_fetch, lent, p, k, worker).into()
}

#[inline]
pub fn start(lent: &mut Lent, p: usize, k: usize, worker: u32) -> Result<Outcome, Refusal> {
    call!(yolluvek_start, lent, p, k, worker).into()
}

#[inline]
pub fn complete(lent: &mut Lent, p: usize, k: usize, worker: u32) -> Result<Outcome, Refusal> {
    call!(yolluvek_complete, lent, p, k, worker).into()
}

#[inline]
pub fn release(lent: &mut Lent, p: usize, k: usize, worker: u32) -> Result<Outcome, Refusal> {
    call!(yolluvek_release, lent, p, k, worker).into()
}

/// The preview's five calls, with the engine's parameters and replies.
pub mod preview {
    use super::{call, declare, Engine, Lent, Outcome, Refusal, Reply, Step, StepReply, ROW_WORDS};

    /// The proved preview, lent the lists of a `Memory`.
    pub const PREVIEW: Engine = Engine {
        name: "proved, preview",
        begin: |memory, p, k| begin(&mut Lent::of(memory), p, k),
        step: |memory, p, k, worker, which| step(&mut Lent::of(memory), p, k, worker, which),
    };

    declare! {
        u32, [u32; ROW_WORDS]:

        yolluvek_preview_begin(
            succ_starts: mut, succs: mut, degrees: mut, rings: mut,
            ends: mut, counters: mut, buffers: mut, executed: mut,
        ) -> Reply;
        yolluvek_preview_fetch(
            succ_starts: const, succs: const, degrees: const, rings: const,
            ends: mut, counters: const, buffers: const, executed: const,
            worker: u32,
        ) -> StepReply;
        yolluvek_preview_start(
            succ_starts: const, succs: const, degrees: const, rings: const,
            ends: const, counters: const, buffers: const, executed: const,
            worker: u32,
        ) -> StepReply;
        yolluvek_preview_complete(
            succ_starts: const, succs: const, degrees: const, rings: const,
            ends: const, counters: mut, buffers: mut, executed: mut,
            worker: u32,
        ) -> StepReply;
        yolluvek_preview_release(
            succ_starts: const, succs: const, degrees: mut, rings: mut,
            ends: mut, counters: mut, buffers: const, executed: const,
            worker: u32,
        ) -> StepReply;
    }

    #[inline]
    pub fn begin(lent: &mut Lent, p: usize, k: usize) -> Result<(), Refusal> {
        call!(yolluvek_preview_begin, lent, p, k).into()
    }

    #[inline]
    pub fn step(lent: &mut Lent, p: usize, k: usize, worker: u32, step: Step) -> Result<Outcome, Refusal> {
        let reply = match step {
            Step::Fetch => call!(yolluvek_preview_fetch, lent, p, k, worker),
            Step::Start => call!(yolluvek_preview_start, lent, p, k, worker),
            Step::Complete => call!(yolluvek_preview_complete, lent, p, k, worker),
            Step::Release => call!(yolluvek_preview_release, lent, p, k, worker),
        };
        reply.into()
    }
}
