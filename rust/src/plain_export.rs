//! The plain engine, writer and load windows behind the interface of the proved ones' exports, so that costs are compared alike.

use crate::exports::{call, call_windows, call_writer, Reply, StepReply, WriteReply};
use crate::memory::{Outcome, Step, ROW_WORDS};
use crate::model::Refusal;
use crate::plain_engine::{self, Lent};
use crate::plain_windows;
use crate::plain_writer;
use std::slice::{from_raw_parts, from_raw_parts_mut};

impl From<Result<(), Refusal>> for Reply {
    #[inline]
    fn from(answer: Result<(), Refusal>) -> Reply {
        let (number, detail) = match answer {
            Ok(()) => (0, 0),
            Err(Refusal { number, detail }) => (number, detail),
        };
        Reply { number, detail }
    }
}

impl From<Result<Outcome, Refusal>> for StepReply {
    #[inline]
    fn from(answer: Result<Outcome, Refusal>) -> StepReply {
        let (number, detail, kind, first, second) = match answer {
            Err(Refusal { number, detail }) => (number, detail, 0, 0, 0),
            Ok(Outcome::Moved) => (0, 0, 0, 0, 0),
            Ok(Outcome::Fetched { task }) => (0, 0, 1, task, 0),
            Ok(Outcome::DegreeLeft { degree }) => (0, 0, 2, degree, 0),
            Ok(Outcome::Placed { task, owner }) => (0, 0, 3, task, owner),
        };
        StepReply {
            number,
            detail,
            kind,
            first,
            second,
        }
    }
}

impl From<Result<u32, Refusal>> for WriteReply {
    #[inline]
    fn from(answer: Result<u32, Refusal>) -> WriteReply {
        let (number, detail, used) = match answer {
            Ok(used) => (0, 0, used),
            Err(Refusal { number, detail }) => (number, detail, 0),
        };
        WriteReply { number, detail, used }
    }
}

/// Exports a call of the plain engine that takes the lent lists, P, K and what is named here.
macro_rules! export {
    ($($export:ident = $call:ident($($number:ident: $of:ty)?) -> $reply:ty;)*) => {
        $(
            /// # Safety
            ///
            /// Each pointer and length are those of a list that lives through the call; those that are written are lent alone.
            #[inline(never)]
            pub unsafe extern "C" fn $export(
                weights: *const u32,
                weights_len: usize,
                pred_starts: *const u32,
                pred_starts_len: usize,
                preds: *const u32,
                preds_len: usize,
                succ_starts: *mut u32,
                succ_starts_len: usize,
                succs: *mut u32,
                succs_len: usize,
                degrees: *mut u32,
                degrees_len: usize,
                rings: *mut u32,
                rings_len: usize,
                ends: *mut u32,
                ends_len: usize,
                counters: *mut i32,
                counters_len: usize,
                buffers: *mut u32,
                buffers_len: usize,
                executed: *mut u32,
                executed_len: usize,
                run: *mut u32,
                run_len: usize,
                rows: *mut [u32; ROW_WORDS],
                rows_len: usize,
                p: usize,
                k: usize,
                $($number: $of)?
            ) -> $reply {
                let mut lent = Lent {
                    weights: from_raw_parts(weights, weights_len),
                    pred_starts: from_raw_parts(pred_starts, pred_starts_len),
                    preds: from_raw_parts(preds, preds_len),
                    succ_starts: from_raw_parts_mut(succ_starts, succ_starts_len),
                    succs: from_raw_parts_mut(succs, succs_len),
                    degrees: from_raw_parts_mut(degrees, degrees_len),
                    rings: from_raw_parts_mut(rings, rings_len),
                    ends: from_raw_parts_mut(ends, ends_len),
                    counters: from_raw_parts_mut(counters, counters_len),
                    buffers: from_raw_parts_mut(buffers, buffers_len),
                    executed: from_raw_parts_mut(executed, executed_len),
                    run: from_raw_parts_mut(run, run_len),
                    rows: from_raw_parts_mut(rows, rows_len),
                };
                plain_engine::$call(&mut lent, p, k $(, $number)?).into()
            }
        )*
    };
}

export! {
    plain_begin = begin() -> Reply;
    plain_fetch = fetch(worker: u32) -> StepReply;
    plain_start = start(worker: u32) -> StepReply;
    plain_complete = complete(worker: u32) -> StepReply;
    plain_release = release(worker: u32) -> StepReply;
}

pub fn begin(lent: &mut Lent, p: usize, k: usize) -> Result<(), Refusal> {
    call!(plain_begin, lent, p, k).into()
}

pub fn step(lent: &mut Lent, p: usize, k: usize, worker: u32, step: Step) -> Result<Outcome, Refusal> {
    let reply = match step {
        Step::Fetch => call!(plain_fetch, lent, p, k, worker),
        Step::Start => call!(plain_start, lent, p, k, worker),
        Step::Complete => call!(plain_complete, lent, p, k, worker),
        Step::Release => call!(plain_release, lent, p, k, worker),
    };
    reply.into()
}

/// # Safety
///
/// Each pointer and length are those of a list that lives through the call; the text is lent alone.
#[inline(never)]
#[allow(clippy::too_many_arguments)]
pub unsafe extern "C" fn plain_write_text(
    weights: *const u32,
    weights_len: usize,
    starts: *const u32,
    starts_len: usize,
    preds: *const u32,
    preds_len: usize,
    text: *mut u8,
    text_len: usize,
) -> WriteReply {
    let answer = plain_writer::write(
        from_raw_parts(weights, weights_len),
        from_raw_parts(starts, starts_len),
        from_raw_parts(preds, preds_len),
        from_raw_parts_mut(text, text_len),
    );
    answer.into()
}

pub fn write(weights: &[u32], starts: &[u32], preds: &[u32], text: &mut [u8]) -> Result<u32, Refusal> {
    call_writer!(plain_write_text, weights, starts, preds, text).into()
}

/// # Safety
///
/// Each pointer and length are those of a list that lives through the call; the results are lent alone.
#[inline(never)]
#[allow(clippy::too_many_arguments)]
pub unsafe extern "C" fn plain_windows(
    weights: *const u32,
    weights_len: usize,
    executed: *const u32,
    executed_len: usize,
    run: *const u32,
    run_len: usize,
    results: *mut u32,
    results_len: usize,
    p: usize,
    m: usize,
) -> Reply {
    let answer = plain_windows::windows(
        from_raw_parts(weights, weights_len),
        from_raw_parts(executed, executed_len),
        from_raw_parts(run, run_len),
        from_raw_parts_mut(results, results_len),
        p,
        m,
    );
    answer.into()
}

pub fn windows(
    weights: &[u32],
    executed: &[u32],
    run: &[u32],
    results: &mut [u32],
    p: usize,
    m: usize,
) -> Result<(), Refusal> {
    call_windows!(plain_windows, weights, executed, run, results, p, m).into()
}
