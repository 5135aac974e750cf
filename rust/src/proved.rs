//! The proved reader, writer and load windows, called through their exports.

use crate::exports::{call_windows, call_writer, Reply, WriteReply};
use crate::model::Refusal;

#[repr(C)]
struct ReadReply {
    number: u32,
    detail: u32,
    tasks: u32,
    edges: u32,
}

extern "C" {
    fn yolluvek_read_text(
        text: *const u8,
        text_len: usize,
        weights: *mut u32,
        weights_len: usize,
        starts: *mut u32,
        starts_len: usize,
        preds: *mut u32,
        preds_len: usize,
    ) -> ReadReply;

    fn yolluvek_write_text(
        weights: *const u32,
        weights_len: usize,
        starts: *const u32,
        starts_len: usize,
        preds: *const u32,
        preds_len: usize,
        text: *mut u8,
        text_len: usize,
    ) -> WriteReply;

    fn yolluvek_windows(
        weights: *const u32,
        weights_len: usize,
        executed: *const u32,
        executed_len: usize,
        run: *const u32,
        run_len: usize,
        results: *mut u32,
        results_len: usize,
        p: usize,
        m: usize,
    ) -> Reply;
}

// Each is inlined, so that a program that calls other exports alone needs no archive of these.

/// The export's answer as the model gives it; refused, N and E have to be 0.
#[inline]
pub fn read(text: &[u8], weights: &mut [u32], starts: &mut [u32], preds: &mut [u32]) -> Result<(u32, u32), Refusal> {
    // each pointer and length is that of a list that lives through the call; the three that are written are lent alone
    let reply = unsafe {
        yolluvek_read_text(
            text.as_ptr(),
            text.len(),
            weights.as_mut_ptr(),
            weights.len(),
            starts.as_mut_ptr(),
            starts.len(),
            preds.as_mut_ptr(),
            preds.len(),
        )
    };
    match reply.number {
        0 => {
            assert_eq!(reply.detail, 0, "an accepted text has detail 0");
            Ok((reply.tasks, reply.edges))
        }
        number => {
            assert_eq!((reply.tasks, reply.edges), (0, 0), "a refused text has no N and E");
            let detail = reply.detail;
            Err(Refusal { number, detail })
        }
    }
}

#[inline]
pub fn write(weights: &[u32], starts: &[u32], preds: &[u32], text: &mut [u8]) -> Result<u32, Refusal> {
    call_writer!(yolluvek_write_text, weights, starts, preds, text).into()
}

#[inline]
pub fn windows(
    weights: &[u32],
    executed: &[u32],
    run: &[u32],
    results: &mut [u32],
    p: usize,
    m: usize,
) -> Result<(), Refusal> {
    call_windows!(yolluvek_windows, weights, executed, run, results, p, m).into()
}
