//! The interface of the engine's exports: the lent lists in document 01's order, each as pointer and length, then P, K and, for a
//! step, the worker; those of the writer's export and of load windows; and their replies.

use crate::memory::Outcome;
use crate::model::{Refusal, MAX_EDGES, MAX_TASKS};

#[repr(C)]
pub struct Reply {
    pub number: u32,
    pub detail: u32,
}

#[repr(C)]
pub struct StepReply {
    pub number: u32,
    pub detail: u32,
    pub kind: u32,
    pub first: u32,
    pub second: u32,
}

#[repr(C)]
pub struct WriteReply {
    pub number: u32,
    pub detail: u32,
    pub used: u32,
}

/// The bytes that always suffice for a text, as the header has them: 5 for the first line; at most 16 for a task's number,
/// time and count, each with the mark behind it; and 5 for a predecessor.
pub const MAX_WRITTEN: usize = 5 + 16 * MAX_TASKS + 5 * MAX_EDGES;

/// The answer of begin, of a call on a graph, of the judging call or of load windows, as the model gives it.
impl From<Reply> for Result<(), Refusal> {
    #[inline]
    fn from(reply: Reply) -> Self {
        match reply {
            Reply { number: 0, detail } => {
                assert_eq!(detail, 0, "an accepted call has detail 0");
                Ok(())
            }
            Reply { number, detail } => Err(Refusal { number, detail }),
        }
    }
}

/// The step's answer as the model gives it.
impl From<StepReply> for Result<Outcome, Refusal> {
    #[inline]
    fn from(reply: StepReply) -> Self {
        let StepReply {
            number,
            detail,
            kind,
            first,
            second,
        } = reply;
        if number != 0 {
            assert_eq!((kind, first, second), (0, 0, 0), "a refused step answers nothing else");
            return Err(Refusal { number, detail });
        }
        assert_eq!(detail, 0, "an accepted step has detail 0");
        Ok(match (kind, first, second) {
            (0, 0, 0) => Outcome::Moved,
            (1, task, 0) => Outcome::Fetched { task },
            (2, degree, 0) => Outcome::DegreeLeft { degree },
            (3, task, owner) => Outcome::Placed { task, owner },
            answer => panic!("{answer:?} is no answer of a step"),
        })
    }
}

/// The writer's answer as the model gives it; refused, the bytes used have to be 0.
impl From<WriteReply> for Result<u32, Refusal> {
    #[inline]
    fn from(reply: WriteReply) -> Self {
        let WriteReply { number, detail, used } = reply;
        if number != 0 {
            assert_eq!(used, 0, "a refused save has used no bytes");
            return Err(Refusal { number, detail });
        }
        assert_eq!(detail, 0, "an accepted save has detail 0");
        Ok(used)
    }
}

/// Declares exports that take the lent lists in document 01's order, P, K and what is named here: a slot of a ring, a row, and
/// whether an export writes a list, for each that some export writes and another doesn't. Weak jobs alone have fixed workers.
#[cfg(feature = "linked")]
macro_rules! declare {
    ($slot:ty, $row:ty: $($export:ident(
        succ_starts: $succ_starts:tt,
        succs: $succs:tt,
        degrees: $degrees:tt,
        $(fixed: $fixed:tt,)?
        rings: $rings:tt,
        ends: $ends:tt,
        counters: $counters:tt,
        buffers: $buffers:tt,
        executed: $executed:tt,
        $($number:ident: $of:ty,)?
    ) -> $reply:ty;)*) => {
        extern "C" {
            $(fn $export(
                weights: *const u32,
                weights_len: usize,
                pred_starts: *const u32,
                pred_starts_len: usize,
                preds: *const u32,
                preds_len: usize,
                succ_starts: *$succ_starts u32,
                succ_starts_len: usize,
                succs: *$succs u32,
                succs_len: usize,
                degrees: *$degrees u32,
                degrees_len: usize,
                $(fixed: *$fixed u32,
                fixed_len: usize,)?
                rings: *$rings $slot,
                rings_len: usize,
                ends: *$ends u32,
                ends_len: usize,
                counters: *$counters i32,
                counters_len: usize,
                buffers: *$buffers u32,
                buffers_len: usize,
                executed: *$executed u32,
                executed_len: usize,
                run: *mut u32,
                run_len: usize,
                rows: *mut $row,
                rows_len: usize,
                p: usize,
                k: usize,
                $($number: $of)?
            ) -> $reply;)*
        }
    };
}

/// Calls an export on the lent lists.
macro_rules! call {
    ($export:ident, $lent:expr, $($number:expr),*) => {{
        let lent: &mut Lent = $lent;
        // each pointer and length is that of a list that lives through the call; those that are written are lent alone
        unsafe {
            $export(
                lent.weights.as_ptr(),
                lent.weights.len(),
                lent.pred_starts.as_ptr(),
                lent.pred_starts.len(),
                lent.preds.as_ptr(),
                lent.preds.len(),
                lent.succ_starts.as_mut_ptr(),
                lent.succ_starts.len(),
                lent.succs.as_mut_ptr(),
                lent.succs.len(),
                lent.degrees.as_mut_ptr(),
                lent.degrees.len(),
                lent.rings.as_mut_ptr(),
                lent.rings.len(),
                lent.ends.as_mut_ptr(),
                lent.ends.len(),
                lent.counters.as_mut_ptr(),
                lent.counters.len(),
                lent.buffers.as_mut_ptr(),
                lent.buffers.len(),
                lent.executed.as_mut_ptr(),
                lent.executed.len(),
                lent.run.as_mut_ptr(),
                lent.run.len(),
                lent.rows.as_mut_ptr(),
                lent.rows.len(),
                $($number),*
            )
        }
    }};
}

/// Calls a writer's export on the three lists of a graph and a buffer.
macro_rules! call_writer {
    ($export:ident, $weights:expr, $starts:expr, $preds:expr, $text:expr) => {{
        let (weights, starts, preds): (&[u32], &[u32], &[u32]) = ($weights, $starts, $preds);
        let text: &mut [u8] = $text;
        // each pointer and length is that of a list that lives through the call; the buffer is lent alone
        unsafe {
            $export(
                weights.as_ptr(),
                weights.len(),
                starts.as_ptr(),
                starts.len(),
                preds.as_ptr(),
                preds.len(),
                text.as_mut_ptr(),
                text.len(),
            )
        }
    }};
}

/// Calls an export of load windows on weights, record, run words and results, P and m.
macro_rules! call_windows {
    ($export:ident, $weights:expr, $executed:expr, $run:expr, $results:expr, $p:expr, $m:expr) => {{
        let (weights, executed, run): (&[u32], &[u32], &[u32]) = ($weights, $executed, $run);
        let results: &mut [u32] = $results;
        // each pointer and length is that of a list that lives through the call; the results are lent alone
        unsafe {
            $export(
                weights.as_ptr(),
                weights.len(),
                executed.as_ptr(),
                executed.len(),
                run.as_ptr(),
                run.len(),
                results.as_mut_ptr(),
                results.len(),
                $p,
                $m,
            )
        }
    }};
}

pub(crate) use call;
pub(crate) use call_windows;
pub(crate) use call_writer;
#[cfg(feature = "linked")]
pub(crate) use declare;
