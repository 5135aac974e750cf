//! The scheduling core of a job console: which worker gets which task next, by proved code.
//!
//! A [`Job`] owns a task graph and all the memory of its run. It is read from a text of the Standard Task Graph Set
//! ([`Job::from_text`]) or made from tables ([`Job::from_tables`]), for a number of workers and of slots in each ring.
//! [`Job::begin`] begins a run, and each call of [`Job::fetch`], [`Job::start`], [`Job::complete`] and [`Job::release`]
//! is one step of one worker. `docs/RULE.md` says which worker a released task goes to, in words and with examples. For
//! another scheduler the graph is saved as such a text again ([`Tables::to_text`]). [`Job::windows`] says which weight each
//! worker finished in every run of neighbouring entries of the record.
//!
//! A [`Preview`] is a job with smaller limits, for a planning window that has less memory. A [`WeakJob`] works on each task
//! once with each of its predecessors, by [copies](TaskCopy).
//!
//! # Example
//!
//! The diamond: tasks 1 and 2 wait for task 0, and task 3 waits for both. Two workers, four slots in a ring. The
//! workers take turns, and each turn is the first accepted of Release, Fetch, Start and Complete, or nothing.
//!
//! ```
//! use yolluvek::{Job, Refusal, WorkerId};
//!
//! let text = b"2\n\
//!     0 0 0\n\
//!     1 5 1 0\n\
//!     2 3 1 0\n\
//!     3 0 2 1 2\n";
//! let mut job = Job::from_text(text, 2, 4)?;
//! job.begin()?;
//!
//! let mut workers = [0, 1].map(WorkerId::new).into_iter().cycle();
//! while !job.is_finished() {
//!     let worker = workers.next().expect("they take turns for ever");
//!     let _taken = job.release(worker).is_ok()
//!         || job.fetch(worker).is_ok()
//!         || job.start(worker).is_ok()
//!         || job.complete(worker).is_ok();
//! }
//!
//! // 3 steps for each of the 4 tasks, and a Release for each of the 4 edges
//! assert_eq!(job.accepted(), 16);
//! let record: Vec<(u32, u32)> = job
//!     .record()
//!     .iter()
//!     .map(|entry| (entry.task.number(), entry.worker.number()))
//!     .collect();
//! assert_eq!(record, [(0, 0), (2, 1), (1, 0), (3, 0)]);
//!
//! // a refusal says why, in words too
//! let refusal = job.fetch(WorkerId::new(2)).unwrap_err();
//! assert_eq!((refusal.number(), refusal.detail()), (7, 2));
//! assert_eq!(refusal.to_string(), "worker 2 doesn't exist: there are 2 workers");
//! # Ok::<(), Refusal>(())
//! ```
//!
//! # What is promised
//!
//! - **Refused means untouched.** A refused call leaves the job as it was; so there is nothing to undo, and the call
//!   can be made again. `docs/REFUSALS.md` says what each number means and what to do about it.
//! - **No input panics.** Any text, tables and numbers are taken. What is beyond a limit is refused with 2 by the call
//!   that judges it, and a job never allocates more than its limits allow, besides the tables that it is handed.
//! - **Every run comes out.** While a run isn't finished, some worker has a step that is accepted; a finished one has
//!   exactly 3N + E accepted steps, N the tasks and E the edges, and a record with every task once, after all its
//!   predecessors.
//!
//! Some of that is proved on the condition that nothing but the engine writes its memory. Here this holds by Rust's
//! types: all that the engine writes is private to a job and handed out by shared reference alone, and each call
//! that writes borrows the job mutably, so that calls come one after the other. To share a job among threads, put it
//! behind a lock; `examples/threads.rs` does, and says which thread to wake when.
//!
//! # Linking
//!
//! The build script links the archives `libgraph_export.a`, `libstg_export.a`, `libengine_export.a`, `libpreview_export.a`,
//! `libwindows_export.a` and `libweak_export.a` (x86-64 Linux), which `make archives` writes to `target/staticlib` of the repository; the
//! environment variable `YOLLUVEK_LIB` names another folder. A relative name counts from the folder that cargo is called
//! in, or else from the nearest folder around this package that has it. A call allocates nothing and uses at most about
//! 41 KB of stack.

#![deny(missing_docs, unsafe_code)]

mod callers;
mod dummies;
mod faults;
#[allow(unsafe_code)]
mod ffi;
mod ids;
mod job;
mod kinds;
#[cfg(test)]
mod layout;
pub mod limits;
mod memory;
mod refusal;
mod reply;
mod step;
mod tables;
mod text;
mod views;
mod weak;
mod windows;

pub use callers::{Caller, Engine, ItemOf, Planner, ReleasedOf, WeakEngine};
pub use dummies::{Lack, Missing};
pub use faults::Fault;
pub use ids::{TaskCopy, TaskId, WorkerId};
pub use job::{Job, JobOf, Preview, Side, WeakJob};
pub use memory::{Ends, Entry};
pub use refusal::Refusal;
pub use step::{Call, NextRelease, Outcome, Phase, Placed, Released, Step};
pub use tables::Tables;
pub use weak::CopyEntry;
pub use windows::{Window, Windows, WindowsIter};

/// The program of the front page, compiled and run as it stands there.
#[cfg(doctest)]
#[doc = include_str!("../../../README.md")]
struct FrontPage;
