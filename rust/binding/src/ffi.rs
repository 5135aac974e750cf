//! The calls of the library: lists as pointer and length, as in `include/yolluvek.h`. All unsafe code of this crate is
//! here.
//!
//! Of a host it is assumed (README.md, "What is assumed"):
//!
//! - good: each pointer is aligned and good for as many words as it says; an empty list may have any pointer that isn't
//!   null;
//! - apart: no list that a call writes overlaps another list of that call;
//! - alone: nobody else writes a list during a call, nor between the calls of a run.
//!
//! Each list is a vector, a field or a slice, which gives the first, the empty ones too. Those that a call writes are
//! borrowed mutably, each from an owner of its own, which gives the second and, during a call, the third; between the
//! calls of a run the lists are private to a `JobOf`, which lends them to these calls alone.

use crate::ids::{TaskId, WorkerId};
use crate::kinds::{Copied, Kind, Plain, Recorded, Weak, WeakRun};
use crate::memory::{Ends, Entry, Memory, Row, Run};
use std::mem::{size_of, size_of_val};

/// What begin, the check, the judging call and the load windows answer.
#[derive(Clone, Copy, Debug, PartialEq, Eq)]
#[repr(C)]
pub struct Reply {
    pub number: u32,
    pub detail: u32,
}

/// What a step answers. The kind is 0 of a refused step, of Start and of Complete, 1 of a Fetch with its task, 2 of a
/// Release with the degree left, 3 of one with the task placed and its owner.
#[derive(Clone, Copy, Debug, PartialEq, Eq)]
#[repr(C)]
pub struct StepReply {
    pub number: u32,
    pub detail: u32,
    pub kind: u32,
    pub first: u32,
    pub second: u32,
}

/// What a step of a weak job answers. The kind is 0 of a refused step, of Start and of Complete, 1 of a Fetch with its copy,
/// 2 of a Release with the copy placed and its owner.
#[derive(Clone, Copy, Debug, PartialEq, Eq)]
#[repr(C)]
pub struct WeakStepReply {
    pub number: u32,
    pub detail: u32,
    pub kind: u32,
    pub first: u32,
    pub second: u32,
    pub third: u32,
}

/// What the reader answers.
#[derive(Clone, Copy, Debug, PartialEq, Eq)]
#[repr(C)]
pub(crate) struct ReadReply {
    pub number: u32,
    pub detail: u32,
    pub tasks: u32,
    pub edges: u32,
}

/// What the writer answers.
#[derive(Clone, Copy, Debug, PartialEq, Eq)]
#[repr(C)]
pub(crate) struct WriteReply {
    pub number: u32,
    pub detail: u32,
    pub used: u32,
}

/// Where a lookup's part stands in the table on the side named, and how many neighbours it has.
#[derive(Clone, Copy, Debug, PartialEq, Eq)]
#[repr(C)]
pub(crate) struct Part {
    pub place: u32,
    pub count: u32,
}

extern "C" {
    fn yolluvek_read_text(
        text: *const u8,
        text_len: usize,
        weights: *mut u32,
        weights_len: usize,
        starts: *mut u32,
        starts_len: usize,
        preds: *mut TaskId,
        preds_len: usize,
    ) -> ReadReply;

    fn yolluvek_write_text(
        weights: *const u32,
        weights_len: usize,
        starts: *const u32,
        starts_len: usize,
        preds: *const TaskId,
        preds_len: usize,
        text: *mut u8,
        text_len: usize,
    ) -> WriteReply;

    fn yolluvek_check_graph(
        most_tasks: usize,
        most_edges: usize,
        weights: *const u32,
        weights_len: usize,
        starts: *const u32,
        starts_len: usize,
        preds: *const TaskId,
        preds_len: usize,
    ) -> Reply;

    fn yolluvek_windows(
        weights: *const u32,
        weights_len: usize,
        executed: *const Entry,
        executed_len: usize,
        run: *const Run,
        run_len: usize,
        results: *mut u32,
        results_len: usize,
        p: usize,
        m: usize,
    ) -> Reply;
}

/// Reads a text into lists of 1,024, 1,025 and 8,192 words, else it is refused with 1.
pub(crate) fn read_text(text: &[u8], weights: &mut [u32], starts: &mut [u32], preds: &mut [TaskId]) -> ReadReply {
    // SAFETY: good, apart, alone: four slices, three of them borrowed mutably; a TaskId is a word
    unsafe {
        yolluvek_read_text(
            text.as_ptr(),
            text.len(),
            weights.as_mut_ptr(),
            weights.len(),
            starts.as_mut_ptr(),
            starts.len(),
            preds.as_mut_ptr(),
            preds.len(),
        )
    }
}

/// Saves a graph as a text into the buffer, whose bytes behind the text stay; a shorter one is refused with 1.
pub(crate) fn write_text(weights: &[u32], starts: &[u32], preds: &[TaskId], text: &mut [u8]) -> WriteReply {
    // SAFETY: good, apart, alone: four slices, the one that is written borrowed mutably; a TaskId is a word
    unsafe {
        yolluvek_write_text(
            weights.as_ptr(),
            weights.len(),
            starts.as_ptr(),
            starts.len(),
            preds.as_ptr(),
            preds.len(),
            text.as_mut_ptr(),
            text.len(),
        )
    }
}

/// The graph check with these limits on N and E, which are the lengths of weights and predecessors.
pub(crate) fn check_graph(
    most_tasks: usize,
    most_edges: usize,
    weights: &[u32],
    starts: &[u32],
    preds: &[TaskId],
) -> Reply {
    // SAFETY: good, alone: three slices; apart: none is written
    unsafe {
        yolluvek_check_graph(
            most_tasks,
            most_edges,
            weights.as_ptr(),
            weights.len(),
            starts.as_ptr(),
            starts.len(),
            preds.as_ptr(),
            preds.len(),
        )
    }
}

/// The load windows of a `Memory` for P workers and m entries, into exactly P + 1 words for each, else it is refused with 1.
pub(crate) fn windows(memory: &Memory, results: &mut [u32], p: usize, m: usize) -> Reply {
    // SAFETY: good: two vectors, a slice, and a Run, which is its two words; an Entry is two words, so their count is
    // twice the vector's length, which is at most 1,024. Apart, alone: the one that is written is borrowed mutably
    unsafe {
        yolluvek_windows(
            memory.tables.weights.as_ptr(),
            memory.tables.weights.len(),
            memory.executed.as_ptr(),
            2 * memory.executed.len(),
            &memory.run,
            2,
            results.as_mut_ptr(),
            results.len(),
            p,
            m,
        )
    }
}

/// Declares calls on weights and both tables, and makes them on those of a `Memory`; side 0 is that of the predecessors,
/// any other that of the successors.
macro_rules! lookups {
    ($(
        $(#[$says:meta])*
        $name:ident = $call:ident -> $reply:ty;
    )*) => {
        extern "C" {
            $(fn $call(
                weights: *const u32,
                weights_len: usize,
                pred_starts: *const u32,
                pred_starts_len: usize,
                preds: *const TaskId,
                preds_len: usize,
                succ_starts: *const u32,
                succ_starts_len: usize,
                succs: *const TaskId,
                succs_len: usize,
                side: u32,
                task: TaskId,
            ) -> $reply;)*
        }

        $($(#[$says])*
        pub(crate) fn $name<K: Kind>(memory: &Memory<K>, side: u32, task: TaskId) -> $reply {
            // SAFETY: good, alone: five vectors of one borrow; apart: none is written
            unsafe {
                $call(
                    memory.tables.weights.as_ptr(),
                    memory.tables.weights.len(),
                    memory.tables.pred_starts.as_ptr(),
                    memory.tables.pred_starts.len(),
                    memory.tables.preds.as_ptr(),
                    memory.tables.preds.len(),
                    memory.succ_starts.as_ptr(),
                    memory.succ_starts.len(),
                    memory.succs.as_ptr(),
                    memory.succs.len(),
                    side,
                    task,
                )
            }
        })*
    };
}

lookups! {
    /// The judging call of a lookup.
    judge_lookup = yolluvek_judge_lookup -> Reply;

    /// Where a lookup's part stands; 0 and 0 where it is refused.
    lookup = yolluvek_lookup -> Part;
}

/// A list of a borrowed `Memory` as the pointer that a call is declared with.
macro_rules! lent {
    (const $list:expr) => {
        $list.as_ptr()
    };
    (mut $list:expr) => {
        $list.as_mut_ptr()
    };
}

/// The words of a list, which has no gaps.
fn words_in<T>(list: &[T]) -> usize {
    size_of_val(list) / size_of::<u32>()
}

/// Declares calls on the lists of a run, and makes them on those of a `Memory` of the kind named, whose slots, entries and
/// run words have the types behind it. Whether a call writes a list is named for each that some call writes and another
/// doesn't; none writes the first three, and each writes the last two. Weak jobs alone have fixed workers.
macro_rules! run_calls {
    ($kind:ty, $slot:ty, $entry:ty, $run:ty: $(
        $(#[$says:meta])*
        $name:ident = $call:ident(
            succ_starts: $succ_starts:tt,
            succs: $succs:tt,
            degrees: $degrees:tt,
            $(fixed: $fixed:tt,)?
            rings: $rings:tt,
            ends: $ends:tt,
            counters: $counters:tt,
            buffers: $buffers:tt,
            executed: $executed:tt,
            $($worker:ident: $number:ty,)?
        ) -> $reply:ty;
    )*) => {
        extern "C" {
            $(fn $call(
                weights: *const u32,
                weights_len: usize,
                pred_starts: *const u32,
                pred_starts_len: usize,
                preds: *const TaskId,
                preds_len: usize,
                succ_starts: *$succ_starts u32,
                succ_starts_len: usize,
                succs: *$succs TaskId,
                succs_len: usize,
                degrees: *$degrees u32,
                degrees_len: usize,
                $(fixed: *$fixed u32,
                fixed_len: usize,)?
                rings: *$rings $slot,
                rings_len: usize,
                ends: *$ends Ends,
                ends_len: usize,
                counters: *$counters i32,
                counters_len: usize,
                buffers: *$buffers TaskId,
                buffers_len: usize,
                executed: *$executed $entry,
                executed_len: usize,
                run: *mut $run,
                run_len: usize,
                rows: *mut Row<$slot>,
                rows_len: usize,
                p: usize,
                k: usize,
                $($worker: $number,)?
            ) -> $reply;)*
        }

        $($(#[$says])*
        pub(crate) fn $name(memory: &mut Memory<$kind>, p: usize, k: usize $(, $worker: $number)?) -> $reply {
            // SAFETY: good: vectors, and the run words, which are a field; slots and rows are lent as records, and entries,
            // ends and run words as the words that they are, without gaps. Apart, alone: fields of one mutable borrow
            unsafe {
                $call(
                    memory.tables.weights.as_ptr(),
                    memory.tables.weights.len(),
                    memory.tables.pred_starts.as_ptr(),
                    memory.tables.pred_starts.len(),
                    memory.tables.preds.as_ptr(),
                    memory.tables.preds.len(),
                    lent!($succ_starts memory.succ_starts),
                    memory.succ_starts.len(),
                    lent!($succs memory.succs),
                    memory.succs.len(),
                    lent!($degrees memory.degrees),
                    memory.degrees.len(),
                    $(lent!($fixed memory.fixed),
                    memory.fixed.len(),)?
                    lent!($rings memory.rings),
                    memory.rings.len(),
                    lent!($ends memory.ends),
                    words_in(&memory.ends),
                    lent!($counters memory.counters),
                    memory.counters.len(),
                    lent!($buffers memory.buffers),
                    memory.buffers.len(),
                    lent!($executed memory.executed),
                    words_in(&memory.executed),
                    &mut memory.run,
                    size_of::<$run>() / size_of::<u32>(),
                    memory.rows.as_mut_ptr(),
                    memory.rows.len(),
                    p,
                    k,
                    $($worker,)?
                )
            }
        })*
    };
}

run_calls! {
    Plain, TaskId, Entry, Run:

    /// Begin, with P and K.
    begin = yolluvek_begin(
        succ_starts: mut, succs: mut, degrees: mut, rings: mut,
        ends: mut, counters: mut, buffers: mut, executed: mut,
    ) -> Reply;

    /// Fetch, with P, K and the worker.
    fetch = yolluvek_fetch(
        succ_starts: const, succs: const, degrees: const, rings: const,
        ends: mut, counters: const, buffers: const, executed: const,
        worker: WorkerId,
    ) -> StepReply;

    /// Start, with P, K and the worker.
    start = yolluvek_start(
        succ_starts: const, succs: const, degrees: const, rings: const,
        ends: const, counters: const, buffers: const, executed: const,
        worker: WorkerId,
    ) -> StepReply;

    /// Complete, with P, K and the worker.
    complete = yolluvek_complete(
        succ_starts: const, succs: const, degrees: const, rings: const,
        ends: const, counters: mut, buffers: mut, executed: mut,
        worker: WorkerId,
    ) -> StepReply;

    /// Release, with P, K and the worker.
    release = yolluvek_release(
        succ_starts: const, succs: const, degrees: mut, rings: mut,
        ends: mut, counters: mut, buffers: const, executed: const,
        worker: WorkerId,
    ) -> StepReply;
}

// The preview's calls: the engine's parameters and replies.
run_calls! {
    Plain, TaskId, Entry, Run:

    /// Begin by the preview, with P and K.
    preview_begin = yolluvek_preview_begin(
        succ_starts: mut, succs: mut, degrees: mut, rings: mut,
        ends: mut, counters: mut, buffers: mut, executed: mut,
    ) -> Reply;

    /// Fetch by the preview, with P, K and the worker.
    preview_fetch = yolluvek_preview_fetch(
        succ_starts: const, succs: const, degrees: const, rings: const,
        ends: mut, counters: const, buffers: const, executed: const,
        worker: WorkerId,
    ) -> StepReply;

    /// Start by the preview, with P, K and the worker.
    preview_start = yolluvek_preview_start(
        succ_starts: const, succs: const, degrees: const, rings: const,
        ends: const, counters: const, buffers: const, executed: const,
        worker: WorkerId,
    ) -> StepReply;

    /// Complete by the preview, with P, K and the worker.
    preview_complete = yolluvek_preview_complete(
        succ_starts: const, succs: const, degrees: const, rings: const,
        ends: const, counters: mut, buffers: mut, executed: mut,
        worker: WorkerId,
    ) -> StepReply;

    /// Release by the preview, with P, K and the worker.
    preview_release = yolluvek_preview_release(
        succ_starts: const, succs: const, degrees: mut, rings: mut,
        ends: mut, counters: mut, buffers: const, executed: const,
        worker: WorkerId,
    ) -> StepReply;
}

// The calls of weak jobs.
run_calls! {
    Weak, Copied, Recorded, WeakRun:

    /// Begin of a weak job, with P and K.
    weak_begin = yolluvek_weak_begin(
        succ_starts: mut, succs: mut, degrees: mut, fixed: mut, rings: mut,
        ends: mut, counters: mut, buffers: mut, executed: mut,
    ) -> Reply;

    /// Fetch of a weak job, with P, K and the worker.
    weak_fetch = yolluvek_weak_fetch(
        succ_starts: const, succs: const, degrees: const, fixed: const, rings: const,
        ends: mut, counters: const, buffers: const, executed: const,
        worker: WorkerId,
    ) -> WeakStepReply;

    /// Start of a weak job, with P, K and the worker.
    weak_start = yolluvek_weak_start(
        succ_starts: const, succs: const, degrees: const, fixed: const, rings: const,
        ends: const, counters: const, buffers: const, executed: const,
        worker: WorkerId,
    ) -> WeakStepReply;

    /// Complete of a weak job, with P, K and the worker.
    weak_complete = yolluvek_weak_complete(
        succ_starts: const, succs: const, degrees: mut, fixed: const, rings: const,
        ends: const, counters: mut, buffers: mut, executed: mut,
        worker: WorkerId,
    ) -> WeakStepReply;

    /// Release of a weak job, with P, K and the worker.
    weak_release = yolluvek_weak_release(
        succ_starts: const, succs: const, degrees: const, fixed: mut, rings: mut,
        ends: mut, counters: mut, buffers: const, executed: const,
        worker: WorkerId,
    ) -> WeakStepReply;
}

/// A step, with P, K and the worker.
pub type StepCall<K = Plain> = fn(&mut Memory<K>, usize, usize, WorkerId) -> <K as Kind>::Reply;

/// Begin and the steps of one caller.
#[derive(Clone, Copy)]
pub struct Calls<K: Kind = Plain> {
    pub begin: fn(&mut Memory<K>, usize, usize) -> Reply,
    pub fetch: StepCall<K>,
    pub start: StepCall<K>,
    pub complete: StepCall<K>,
    pub release: StepCall<K>,
}

pub(crate) const ENGINE: Calls = Calls {
    begin,
    fetch,
    start,
    complete,
    release,
};

pub(crate) const PREVIEW: Calls = Calls {
    begin: preview_begin,
    fetch: preview_fetch,
    start: preview_start,
    complete: preview_complete,
    release: preview_release,
};

pub(crate) const WEAK: Calls<Weak> = Calls {
    begin: weak_begin,
    fetch: weak_fetch,
    start: weak_start,
    complete: weak_complete,
    release: weak_release,
};
