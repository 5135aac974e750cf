//! The interface of the weak calls' exports: the lent lists in their order, each as pointer and length, that of rings and rows a number
//! of records, then P, K and, for a step, the worker; and their replies.

use crate::model::Refusal;
use crate::weak::{Copied, Outcome};

/// A step's reply: kind 0 says nothing more, 1 is a copy fetched (task, predecessor), 2 a copy placed (task, predecessor, owner).
#[repr(C)]
pub struct StepReply {
    pub number: u32,
    pub detail: u32,
    pub kind: u32,
    pub first: u32,
    pub second: u32,
    pub third: u32,
}

/// The step's answer as the model gives it.
impl From<StepReply> for Result<Outcome, Refusal> {
    #[inline]
    fn from(reply: StepReply) -> Self {
        let StepReply {
            number,
            detail,
            kind,
            first,
            second,
            third,
        } = reply;
        let answer = (kind, first, second, third);
        if number != 0 {
            assert_eq!(answer, (0, 0, 0, 0), "a refused step answers nothing else");
            return Err(Refusal { number, detail });
        }
        assert_eq!(detail, 0, "an accepted step has detail 0");
        Ok(match answer {
            (0, 0, 0, 0) => Outcome::Moved,
            (1, task, pred, 0) => Outcome::Fetched {
                copy: Copied { task, pred },
            },
            (2, task, pred, owner) => Outcome::Placed {
                copy: Copied { task, pred },
                owner,
            },
            answer => panic!("{answer:?} is no answer of a weak step"),
        })
    }
}

/// Calls an export on the lent lists.
macro_rules! call_weak {
    ($export:ident, $lent:expr, $($number:expr),*) => {{
        let Lent { lists: lent, fixed } = $lent;
        // each pointer and length is that of a list that lives through the call; those that are written are lent alone
        unsafe {
            $export(
                lent.weights.as_ptr(),
                lent.weights.len(),
                lent.pred_starts.as_ptr(),
                lent.pred_starts.len(),
                lent.preds.as_ptr(),
                lent.preds.len(),
                lent.succ_starts.as_mut_ptr(),
                lent.succ_starts.len(),
                lent.succs.as_mut_ptr(),
                lent.succs.len(),
                lent.degrees.as_mut_ptr(),
                lent.degrees.len(),
                fixed.as_mut_ptr(),
                fixed.len(),
                lent.rings.as_mut_ptr(),
                lent.rings.len(),
                lent.ends.as_mut_ptr(),
                lent.ends.len(),
                lent.counters.as_mut_ptr(),
                lent.counters.len(),
                lent.buffers.as_mut_ptr(),
                lent.buffers.len(),
                lent.executed.as_mut_ptr(),
                lent.executed.len(),
                lent.run.as_mut_ptr(),
                lent.run.len(),
                lent.rows.as_mut_ptr(),
                lent.rows.len(),
                $($number),*
            )
        }
    }};
}

pub(crate) use call_weak;
