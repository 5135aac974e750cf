//! The plain weak calls behind the interface of the proved ones' exports, so that costs are compared alike.

use crate::exports::Reply;
use crate::memory::Step;
use crate::model::Refusal;
use crate::plain_engine::LentLists;
use crate::plain_weak::{self, Lent};
use crate::weak::{Outcome, COPY_WORDS, ROW_WORDS};
use crate::weak_exports::{call_weak, StepReply};
use std::slice::{from_raw_parts, from_raw_parts_mut};

impl From<Result<Outcome, Refusal>> for StepReply {
    #[inline]
    fn from(answer: Result<Outcome, Refusal>) -> StepReply {
        let (number, detail, kind, first, second, third) = match answer {
            Err(Refusal { number, detail }) => (number, detail, 0, 0, 0, 0),
            Ok(Outcome::Moved) => (0, 0, 0, 0, 0, 0),
            Ok(Outcome::Fetched { copy }) => (0, 0, 1, copy.task, copy.pred, 0),
            Ok(Outcome::Placed { copy, owner }) => (0, 0, 2, copy.task, copy.pred, owner),
        };
        StepReply {
            number,
            detail,
            kind,
            first,
            second,
            third,
        }
    }
}

/// Exports a plain weak call that takes the lent lists, P, K and what is named here.
macro_rules! export {
    ($($export:ident = $call:ident($($number:ident: $of:ty)?) -> $reply:ty;)*) => {
        $(
            /// # Safety
            ///
            /// Each pointer and length are those of a list that lives through the call; those that are written are lent alone.
            #[inline(never)]
            pub unsafe extern "C" fn $export(
                weights: *const u32,
                weights_len: usize,
                pred_starts: *const u32,
                pred_starts_len: usize,
                preds: *const u32,
                preds_len: usize,
                succ_starts: *mut u32,
                succ_starts_len: usize,
                succs: *mut u32,
                succs_len: usize,
                degrees: *mut u32,
                degrees_len: usize,
                fixed: *mut u32,
                fixed_len: usize,
                rings: *mut [u32; COPY_WORDS],
                rings_len: usize,
                ends: *mut u32,
                ends_len: usize,
                counters: *mut i32,
                counters_len: usize,
                buffers: *mut u32,
                buffers_len: usize,
                executed: *mut u32,
                executed_len: usize,
                run: *mut u32,
                run_len: usize,
                rows: *mut [u32; ROW_WORDS],
                rows_len: usize,
                p: usize,
                k: usize,
                $($number: $of)?
            ) -> $reply {
                let lists = LentLists {
                    weights: from_raw_parts(weights, weights_len),
                    pred_starts: from_raw_parts(pred_starts, pred_starts_len),
                    preds: from_raw_parts(preds, preds_len),
                    succ_starts: from_raw_parts_mut(succ_starts, succ_starts_len),
                    succs: from_raw_parts_mut(succs, succs_len),
                    degrees: from_raw_parts_mut(degrees, degrees_len),
                    rings: from_raw_parts_mut(rings, rings_len),
                    ends: from_raw_parts_mut(ends, ends_len),
                    counters: from_raw_parts_mut(counters, counters_len),
                    buffers: from_raw_parts_mut(buffers, buffers_len),
                    executed: from_raw_parts_mut(executed, executed_len),
                    run: from_raw_parts_mut(run, run_len),
                    rows: from_raw_parts_mut(rows, rows_len),
                };
                let fixed = from_raw_parts_mut(fixed, fixed_len);
                let mut lent = Lent { lists, fixed };
                plain_weak::$call(&mut lent, p, k $(, $number)?).into()
            }
        )*
    };
}

export! {
    plain_weak_begin = begin() -> Reply;
    plain_weak_fetch = fetch(worker: u32) -> StepReply;
    plain_weak_start = start(worker: u32) -> StepReply;
    plain_weak_complete = complete(worker: u32) -> StepReply;
    plain_weak_release = release(worker: u32) -> StepReply;
}

pub fn begin(lent: &mut Lent, p: usize, k: usize) -> Result<(), Refusal> {
    call_weak!(plain_weak_begin, lent, p, k).into()
}

pub fn step(lent: &mut Lent, p: usize, k: usize, worker: u32, step: Step) -> Result<Outcome, Refusal> {
    let reply = match step {
        Step::Fetch => call_weak!(plain_weak_fetch, lent, p, k, worker),
        Step::Start => call_weak!(plain_weak_start, lent, p, k, worker),
        Step::Complete => call_weak!(plain_weak_complete, lent, p, k, worker),
        Step::Release => call_weak!(plain_weak_release, lent, p, k, worker),
    };
    reply.into()
}
