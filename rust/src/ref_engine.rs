//! The calls in document 01's form, the rows as records, through exports that are made for tests alone. A row lies in memory as
//! its six words do.

use crate::engine::Engine;
use crate::exports::{call, declare, Reply, StepReply};
use crate::memory::{Outcome, Step, ROW_WORDS};
use crate::model::Refusal;
use crate::plain_engine::Lent;

/// These calls, lent the lists of a `Memory`.
pub const RECORDS: Engine = Engine {
    name: "proved, rows as records",
    begin: |memory, p, k| begin(&mut Lent::of(memory), p, k),
    step: |memory, p, k, worker, which| step(&mut Lent::of(memory), p, k, worker, which),
};

declare! {
    u32, [u32; ROW_WORDS]:

    yolluvek_ref_begin(
        succ_starts: mut, succs: mut, degrees: mut, rings: mut,
        ends: mut, counters: mut, buffers: mut, executed: mut,
    ) -> Reply;
    yolluvek_ref_fetch(
        succ_starts: const, succs: const, degrees: const, rings: const,
        ends: mut, counters: const, buffers: const, executed: const,
        worker: u32,
    ) -> StepReply;
    yolluvek_ref_start(
        succ_starts: const, succs: const, degrees: const, rings: const,
        ends: const, counters: const, buffers: const, executed: const,
        worker: u32,
    ) -> StepReply;
    yolluvek_ref_complete(
        succ_starts: const, succs: const, degrees: const, rings: const,
        ends: const, counters: mut, buffers: mut, executed: mut,
        worker: u32,
    ) -> StepReply;
    yolluvek_ref_release(
        succ_starts: const, succs: const, degrees: mut, rings: mut,
        ends: mut, counters: mut, buffers: const, executed: const,
        worker: u32,
    ) -> StepReply;
}

pub fn begin(lent: &mut Lent, p: usize, k: usize) -> Result<(), Refusal> {
    call!(yolluvek_ref_begin, lent, p, k).into()
}

pub fn step(lent: &mut Lent, p: usize, k: usize, worker: u32, step: Step) -> Result<Outcome, Refusal> {
    let reply = match step {
        Step::Fetch => call!(yolluvek_ref_fetch, lent, p, k, worker),
        Step::Start => call!(yolluvek_ref_start, lent, p, k, worker),
        Step::Complete => call!(yolluvek_ref_complete, lent, p, k, worker),
        Step::Release => call!(yolluvek_ref_release, lent, p, k, worker),
    };
    reply.into()
}
