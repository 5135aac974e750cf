//! Why a call was refused.

use crate::callers::Whose;
use crate::dummies::{Lack, Missing};
use crate::faults::Fault;
use crate::ids::{TaskId, WorkerId};
use crate::job::Side;
use crate::limits::{Limit, MAX_TASKS, MIN_SLOTS};
use crate::step::{Phase, Step};
use crate::tables::Tables;
use crate::text;
use std::error::Error;
use std::fmt;

/// A refused call: it leaves every word as it was. `docs/REFUSALS.md` says what to do about each number.
///
/// | number | variants | answered by |
/// |---|---|---|
/// | 1 | [`WrongLength`](Refusal::WrongLength) | check, saving, begin, steps, lookup |
/// | 2 | [`BeyondLimit`](Refusal::BeyondLimit) | every call |
/// | 2 | [`BeyondPreview`](Refusal::BeyondPreview) | a preview's begin and steps |
/// | 3 | [`BadPart`](Refusal::BadPart), [`BadEnds`](Refusal::BadEnds) | check, saving, begin, lookup |
/// | 3 | [`BadEdge`](Refusal::BadEdge) | [`try_from_edges`](Tables::try_from_edges) |
/// | 3 | [`NoSuchTask`](Refusal::NoSuchTask), [`NoSuccessorsYet`](Refusal::NoSuccessorsYet) | lookup |
/// | 4 | [`PredecessorTwice`](Refusal::PredecessorTwice) | check, saving, begin |
/// | 5 | [`Cycle`](Refusal::Cycle) | check, saving, begin |
/// | 6 | [`TooManyRoots`](Refusal::TooManyRoots) | begin |
/// | 7 | [`NoSuchWorker`](Refusal::NoSuchWorker) | every step |
/// | 8 | [`NotBegun`](Refusal::NotBegun) | a step before begin |
/// | 8 | [`DamagedWord`](Refusal::DamagedWord) | none |
/// | 9 | [`WrongPhase`](Refusal::WrongPhase) | every step |
/// | 10 | [`NothingToFetch`](Refusal::NothingToFetch), [`NothingToRelease`](Refusal::NothingToRelease) | Fetch, Release |
/// | 11 | [`NoRoom`](Refusal::NoRoom) | Release |
/// | 11 | [`NoRoomForFirst`](Refusal::NoRoomForFirst), [`RingFull`](Refusal::RingFull) | Release of a weak job |
/// | 12 | [`RecordFull`](Refusal::RecordFull) | none |
/// | 13 | [`BadLayout`](Refusal::BadLayout), [`BadFirstLine`](Refusal::BadFirstLine), [`TextEnds`](Refusal::TextEnds) | reading |
/// | 14 | [`NoDummies`](Refusal::NoDummies) | saving |
/// | 15 | [`BadWindow`](Refusal::BadWindow) | load windows |
///
/// In a run, from an accepted begin on, 1, 2, 8 and 12 aren't answered: they would say that something else has written
/// the job's memory. [`UnexpectedReply`](Refusal::UnexpectedReply) and [`Unknown`](Refusal::Unknown) aren't answered at
/// all by the library that this crate was made for.
///
/// ```
/// use yolluvek::{Job, Refusal, WorkerId};
///
/// let mut job = Job::from_text(b"0\n0 0 0\n1 0 0\n", 2, 2)?;
/// job.begin()?;
/// let refusal = job.complete(WorkerId::new(1)).unwrap_err();
/// assert!(matches!(refusal, Refusal::WrongPhase { .. }));
/// assert_eq!((refusal.number(), refusal.detail()), (9, 0));
/// assert_eq!(
///     refusal.to_string(),
///     "the step doesn't suit the worker's phase: it is idle, which suits Release and Fetch"
/// );
/// # Ok::<(), Refusal>(())
/// ```
#[derive(Clone, Debug, PartialEq, Eq, Hash)]
#[non_exhaustive]
pub enum Refusal {
    /// 1: a lent list has the wrong length. A job sizes its own lists, so it is the predecessor starts, of which there
    /// have to be N + 1.
    WrongLength,
    /// 2: a size, a weight or the text is beyond its limit. [`limits`](crate::limits) has them.
    BeyondLimit {
        /// Which one.
        limit: Limit,
    },
    /// 2, by a preview: beyond its limits, and within the engine's, so that no [`Job`](crate::Job) is refused with 2 for it.
    BeyondPreview {
        /// Which of the preview's.
        limit: Limit,
    },
    /// 3: a task's part of a table has a bad start, or a task number that is no task's.
    BadPart {
        /// The smallest such task; of a lookup, the task asked for.
        task: TaskId,
        /// What is wrong in it.
        fault: Fault,
    },
    /// 3: each task's part is right by itself, but the first start isn't 0 or the last one isn't E. The detail is N.
    BadEnds {
        /// N.
        tasks: usize,
        /// What is wrong there.
        fault: Fault,
    },
    /// 3: an edge leads from or to a task that isn't there. The detail is that of the tables with such an edge.
    BadEdge {
        /// Which of the edges, counted from 0.
        place: usize,
        /// The predecessor.
        from: TaskId,
        /// The task that waits for it.
        to: TaskId,
        /// How many tasks there are.
        tasks: usize,
    },
    /// 3, by a lookup: there is no such task.
    NoSuchTask {
        /// The task asked for.
        task: TaskId,
        /// How many tasks there are.
        tasks: usize,
    },
    /// 3, by a lookup of successors before an accepted begin, which writes them: begin first.
    NoSuccessorsYet {
        /// The task asked for.
        task: TaskId,
    },
    /// 4: a predecessor stands twice in one task.
    PredecessorTwice {
        /// The smallest such task.
        task: TaskId,
    },
    /// 5: the tasks form a cycle.
    Cycle {
        /// The smallest task on a cycle.
        task: TaskId,
        /// A whole cycle: that task, then one of its predecessors, and so on; the task is a predecessor of the last one.
        path: Vec<TaskId>,
    },
    /// 6: there are more tasks without predecessors than the rings have room for.
    TooManyRoots {
        /// How many tasks have no predecessors.
        roots: usize,
        /// How many there is room for, P · K.
        room: usize,
    },
    /// 7: there is no such worker.
    NoSuchWorker {
        /// The worker handed in.
        worker: WorkerId,
        /// How many workers there are.
        workers: usize,
    },
    /// 8, before an accepted begin: begin first.
    NotBegun,
    /// 8: a damaged word in the lent memory. A job doesn't answer it in a run.
    DamagedWord,
    /// 9: the step doesn't suit the worker's phase.
    WrongPhase {
        /// The worker's phase.
        phase: Phase,
    },
    /// 10, by Fetch: no task waits in any ring of the worker. No fault; try Release, or another worker.
    NothingToFetch,
    /// 10, by Release: no completed task of the worker has a successor left to release. No fault; try Fetch, or another
    /// worker.
    NothingToRelease,
    /// 11: all rings that the worker fills are full. The task isn't lost: let a worker fetch, then release again.
    NoRoom {
        /// The task that would be placed.
        task: TaskId,
    },
    /// 11, of a first copy in a weak job: all rings that the worker fills are full. The copy isn't lost: let a worker fetch,
    /// then release again. Another worker's Release may fix the task meanwhile; then the copy is a later one.
    NoRoomForFirst {
        /// The task of the copy that would be placed.
        task: TaskId,
    },
    /// 11, of a later copy in a weak job: it goes only to the worker that its task is fixed to, and the ring of that worker
    /// which the releasing one fills is full. The copy isn't lost: let that worker fetch, then release again.
    RingFull {
        /// The task of the copy that would be placed.
        task: TaskId,
        /// The worker that it is fixed to.
        owner: WorkerId,
    },
    /// 12: Complete with all tasks, or all copies of a weak job, recorded. A job doesn't answer it.
    RecordFull,
    /// 13: the text breaks the layout.
    BadLayout {
        /// The line, counted from 1.
        line: u32,
    },
    /// 13: the first line that counts, which is neither blank nor a comment, isn't n alone.
    BadFirstLine {
        /// That line, counted from 1.
        line: u32,
    },
    /// 13: the text ends too early.
    TextEnds {
        /// The line that isn't there, counted from 1.
        line: u32,
        /// How many task lines its n asks for, n + 2; None where there is no n.
        expected: Option<usize>,
        /// How many there are.
        found: usize,
        /// The n with which the text would be whole, where its last line may be the last task's.
        whole: Option<usize>,
    },
    /// 14: the tables lack a text's dummies, its first and its last task.
    NoDummies {
        /// Why.
        lack: Lack,
        /// What has to be added.
        missing: Missing,
    },
    /// 15: a load window has no entries, or more than are recorded. Choose a size from 1 to that number; with nothing
    /// recorded there is none.
    BadWindow {
        /// How many entries the record has.
        entries: usize,
    },
    /// No refusal: the library accepts the call, with a reply that this crate knows no meaning of, as another version of
    /// the library might. The number is 0, and the job may have changed.
    UnexpectedReply {
        /// The reply's words after number and detail, 0 where it has fewer.
        words: [u32; 4],
    },
    /// A number and a detail that this crate knows no meaning of, as another version of the library might answer them.
    Unknown {
        /// The number.
        number: u32,
        /// The detail.
        detail: u32,
    },
}

/// The call that is made, with what its refusals are put into words by.
#[derive(Clone, Copy, Debug)]
pub(crate) enum Asked<'a> {
    Text {
        text: &'a [u8],
    },
    Check {
        tables: &'a Tables,
    },
    Save {
        tables: &'a Tables,
    },
    Lookup {
        side: Side,
        tables: &'a Tables,
        begun: bool,
    },
    Begin {
        whose: Whose,
        tables: &'a Tables,
        workers: usize,
        slots: usize,
    },
    Step {
        whose: Whose,
        step: Step,
        tables: &'a Tables,
        workers: usize,
        slots: usize,
        begun: bool,
        /// A weak job's fixed words, else none.
        fixed: &'a [u32],
    },
    Windows {
        tables: &'a Tables,
        workers: usize,
        entries: usize,
    },
}

impl Asked<'_> {
    /// What the library's number and detail say, 0 and 0 being acceptance.
    pub fn answered(self, number: u32, detail: u32) -> Result<(), Refusal> {
        match (number, detail) {
            (0, 0) => Ok(()),
            _ => Err(self
                .refused(number, detail)
                .unwrap_or(Refusal::Unknown { number, detail })),
        }
    }

    /// The refusal with this number and detail, if this call is known to answer it.
    fn refused(self, number: u32, detail: u32) -> Option<Refusal> {
        let refusal = match (number, self) {
            (1, _) => Refusal::WrongLength,
            (2, _) if self.is_the_engine_s() => Refusal::BeyondPreview { limit: self.limit() },
            (2, _) => Refusal::BeyondLimit { limit: self.limit() },
            (13, Asked::Text { text }) => text::layout_refused(text, detail),
            (_, Asked::Text { .. }) => return None,
            (14, Asked::Save { tables }) => Refusal::NoDummies {
                lack: Lack::of(tables),
                missing: Missing::of(tables),
            },
            (_, Asked::Check { tables } | Asked::Save { tables }) => graph_refused(tables, number, detail)?,
            (3, Asked::Lookup { side, tables, begun }) => lookup_refused(side, tables, begun, detail),
            (_, Asked::Lookup { .. }) => return None,
            (6, Asked::Begin { workers, slots, .. }) => Refusal::TooManyRoots {
                roots: detail as usize,
                room: workers.saturating_mul(slots),
            },
            (_, Asked::Begin { tables, .. }) => graph_refused(tables, number, detail)?,
            (
                11,
                Asked::Step {
                    step: Step::Release,
                    workers,
                    fixed,
                    ..
                },
            ) => no_room(fixed, workers, detail),
            (
                _,
                Asked::Step {
                    step, workers, begun, ..
                },
            ) => step_refused(step, workers, begun, number, detail)?,
            (8, Asked::Windows { .. }) => Refusal::DamagedWord,
            (15, Asked::Windows { entries, .. }) => Refusal::BadWindow { entries },
            (_, Asked::Windows { .. }) => return None,
        };
        // what has no detail of its own is known with detail 0 alone
        (refusal.detail() == detail).then_some(refusal)
    }

    /// Whether a preview's job keeps the engine's limits.
    fn is_the_engine_s(self) -> bool {
        match self {
            Asked::Begin {
                whose: Whose::Preview,
                tables,
                workers,
                slots,
            }
            | Asked::Step {
                whose: Whose::Preview,
                tables,
                workers,
                slots,
                ..
            } => Limit::of_job(tables, workers, slots, Whose::Engine).is_none(),
            _ => false,
        }
    }

    /// Which limit this call goes beyond.
    fn limit(self) -> Limit {
        let found = match self {
            Asked::Text { text } => Some(text::limit(text)),
            Asked::Check { tables } | Asked::Save { tables } => {
                Limit::of_sizes(tables, Whose::Engine).or_else(|| Limit::of_weights(tables))
            }
            Asked::Lookup { tables, .. } => Limit::of_sizes(tables, Whose::Engine),
            Asked::Begin {
                whose,
                tables,
                workers,
                slots,
            } => Limit::of_job(tables, workers, slots, whose),
            Asked::Step {
                whose,
                tables,
                workers,
                slots,
                ..
            } => Limit::of_sizes(tables, whose).or_else(|| Limit::of_numbers(workers, slots, whose)),
            // neither E nor K is judged here
            Asked::Windows { tables, workers, .. } => match tables.weights.len() {
                tasks if tasks > MAX_TASKS => Some(Limit::Tasks { tasks }),
                _ => Limit::of_numbers(workers, MIN_SLOTS, Whose::Engine),
            },
        };
        found.unwrap_or(Limit::Unknown)
    }
}

/// 3, 4 and 5 by the check, by saving and by begin.
fn graph_refused(tables: &Tables, number: u32, detail: u32) -> Option<Refusal> {
    let task = TaskId::new(detail);
    let tasks = detail as usize;
    Some(match number {
        3 if tasks >= tables.weights.len() => Refusal::BadEnds {
            tasks,
            fault: Fault::of_ends(tables),
        },
        3 => Refusal::BadPart {
            task,
            fault: Fault::of_part(tables, task),
        },
        4 => Refusal::PredecessorTwice { task },
        5 => Refusal::Cycle {
            task,
            path: tables.cycle(task).unwrap_or_default(),
        },
        _ => return None,
    })
}

/// 3 by a lookup.
fn lookup_refused(side: Side, tables: &Tables, begun: bool, detail: u32) -> Refusal {
    let task = TaskId::new(detail);
    let tasks = tables.weights.len();
    match side {
        _ if detail as usize >= tasks => Refusal::NoSuchTask { task, tasks },
        Side::Successors if !begun => Refusal::NoSuccessorsYet { task },
        Side::Successors => Refusal::BadPart {
            task,
            fault: Fault::Unknown,
        },
        Side::Predecessors => Refusal::BadPart {
            task,
            fault: Fault::of_part(tables, task),
        },
    }
}

/// 11 by a Release, which has left the task's fixed word as it was; a plain job has none.
fn no_room(fixed: &[u32], workers: usize, detail: u32) -> Refusal {
    let task = TaskId::new(detail);
    match fixed.get(detail as usize) {
        Some(&owner) if (owner as usize) < workers => Refusal::RingFull {
            task,
            owner: WorkerId::new(owner),
        },
        Some(_) => Refusal::NoRoomForFirst { task },
        None => Refusal::NoRoom { task },
    }
}

/// 7 to 10 and 12 by a step.
fn step_refused(step: Step, workers: usize, begun: bool, number: u32, detail: u32) -> Option<Refusal> {
    Some(match (number, step) {
        (7, _) => Refusal::NoSuchWorker {
            worker: WorkerId::new(detail),
            workers,
        },
        (8, _) if begun => Refusal::DamagedWord,
        (8, _) => Refusal::NotBegun,
        (9, _) => Refusal::WrongPhase {
            phase: Phase::of(detail)?,
        },
        (10, Step::Fetch) => Refusal::NothingToFetch,
        (10, Step::Release) => Refusal::NothingToRelease,
        (12, Step::Complete) => Refusal::RecordFull,
        _ => return None,
    })
}

impl Refusal {
    /// The number in the published table of refusals.
    pub const fn number(&self) -> u32 {
        match *self {
            Refusal::UnexpectedReply { .. } => 0,
            Refusal::WrongLength => 1,
            Refusal::BeyondLimit { .. } | Refusal::BeyondPreview { .. } => 2,
            Refusal::BadPart { .. }
            | Refusal::BadEnds { .. }
            | Refusal::BadEdge { .. }
            | Refusal::NoSuchTask { .. }
            | Refusal::NoSuccessorsYet { .. } => 3,
            Refusal::PredecessorTwice { .. } => 4,
            Refusal::Cycle { .. } => 5,
            Refusal::TooManyRoots { .. } => 6,
            Refusal::NoSuchWorker { .. } => 7,
            Refusal::NotBegun | Refusal::DamagedWord => 8,
            Refusal::WrongPhase { .. } => 9,
            Refusal::NothingToFetch | Refusal::NothingToRelease => 10,
            Refusal::NoRoom { .. } | Refusal::NoRoomForFirst { .. } | Refusal::RingFull { .. } => 11,
            Refusal::RecordFull => 12,
            Refusal::BadLayout { .. } | Refusal::BadFirstLine { .. } | Refusal::TextEnds { .. } => 13,
            Refusal::NoDummies { .. } => 14,
            Refusal::BadWindow { .. } => 15,
            Refusal::Unknown { number, .. } => number,
        }
    }

    /// The detail that comes with the number; 0 where the table states none.
    pub const fn detail(&self) -> u32 {
        match *self {
            Refusal::UnexpectedReply { .. }
            | Refusal::WrongLength
            | Refusal::BeyondLimit { .. }
            | Refusal::BeyondPreview { .. }
            | Refusal::NotBegun
            | Refusal::DamagedWord
            | Refusal::NothingToFetch
            | Refusal::NothingToRelease
            | Refusal::RecordFull
            | Refusal::NoDummies { .. }
            | Refusal::BadWindow { .. } => 0,
            Refusal::BadPart { task, .. }
            | Refusal::NoSuchTask { task, .. }
            | Refusal::NoSuccessorsYet { task }
            | Refusal::PredecessorTwice { task }
            | Refusal::Cycle { task, .. }
            | Refusal::NoRoom { task }
            | Refusal::NoRoomForFirst { task }
            | Refusal::RingFull { task, .. } => task.number(),
            Refusal::BadEdge { to, tasks, .. } if (to.number() as usize) < tasks => to.number(),
            Refusal::BadEdge { tasks, .. } => tasks as u32,
            // both come from a detail
            Refusal::BadEnds { tasks: count, .. } | Refusal::TooManyRoots { roots: count, .. } => count as u32,
            Refusal::NoSuchWorker { worker, .. } => worker.number(),
            Refusal::WrongPhase { phase } => phase.number(),
            Refusal::BadLayout { line } | Refusal::BadFirstLine { line } | Refusal::TextEnds { line, .. } => line,
            Refusal::Unknown { detail, .. } => detail,
        }
    }

    /// What an operator does about it, in the words of `docs/REFUSALS.md`.
    ///
    /// ```
    /// use yolluvek::{Job, Refusal, WorkerId};
    ///
    /// let mut job = Job::from_text(b"0\n0 0 0\n1 0 1 0\n", 2, 2)?;
    /// job.begin()?;
    /// let refusal = job.fetch(WorkerId::new(2)).unwrap_err();
    /// assert_eq!(refusal.advice(), "choose another worker.");
    /// # Ok::<(), Refusal>(())
    /// ```
    pub const fn advice(&self) -> &'static str {
        match self {
            Refusal::NotBegun | Refusal::NoSuccessorsYet { .. } => "begin first.",
            Refusal::BeyondLimit { limit } => limit.advice(),
            Refusal::BeyondPreview { limit } => limit.preview_advice(),
            Refusal::BadPart { fault, .. } | Refusal::BadEnds { fault, .. } => fault.advice(),
            Refusal::BadEdge { from, to, .. }
                if from.number() as usize >= MAX_TASKS || to.number() as usize >= MAX_TASKS =>
            {
                "correct that edge."
            }
            Refusal::BadEdge { .. } => "correct that edge, or add all tasks up to the one that isn't there.",
            Refusal::NoSuchTask { .. } => "choose another task.",
            Refusal::NoRoom { .. } => {
                "let a worker fetch, then release again. The refused worker can fetch itself, since a ring that it owns is \
                 full; it then starts and completes that task before it fetches or releases again. After at most P \
                 accepted Fetches of any one worker there is room. If it happens often, use a larger K."
            }
            Refusal::NoRoomForFirst { .. } => {
                "let a worker fetch, then release again. The refused worker can fetch itself, since a ring that it owns is \
                 full; it then starts and completes that task before it fetches or releases again. After at most P \
                 accepted Fetches of any one worker there is room; but once another worker's Release has fixed the task, \
                 only of the worker that it is fixed to. If it happens often, use a larger K."
            }
            Refusal::RingFull { .. } => {
                "let the worker that the task is fixed to fetch, then release again. If that is the refused worker itself, \
                 it starts and completes what it has fetched before it fetches or releases again. After at most P accepted \
                 Fetches of that worker there is room. If it happens often, use a larger K."
            }
            Refusal::BadLayout { .. } => {
                "look in that line for a wrong number of fields, a task number out of turn, a number of more than five \
                 digits or over 65,535, a mark other than digits, spaces and tabs, a time at the first or last task, a \
                 predecessor at task 0, or a line after the last task. Which task is the last one, the line with n says."
            }
            Refusal::BadFirstLine { .. } => "this line has to be n alone, the number of tasks besides the dummies.",
            Refusal::TextEnds { expected: None, .. } => "put n first, then a line for each of n + 2 tasks.",
            Refusal::TextEnds { whole: Some(_), .. } => {
                "correct the line with n, or add the task lines that are missing."
            }
            Refusal::TextEnds { .. } => "add the task lines that are missing. If n is wrong, correct it first.",
            Refusal::NoDummies {
                missing: Missing::Both, ..
            } => {
                "put a task without weight and predecessors first, and one without weight last. Every other task's number \
                 rises by one then, among the predecessors too."
            }
            Refusal::NoDummies {
                missing: Missing::First,
                ..
            } => {
                "put a task without weight and predecessors first. Every other task's number rises by one then, among the \
                 predecessors too."
            }
            Refusal::NoDummies {
                missing: Missing::Last, ..
            } => "put a task without weight last.",
            Refusal::NoDummies {
                missing: Missing::TooMany,
                ..
            } => "split the job: a text has at most 1,022 tasks besides the dummies.",
            _ => advice_on(self.number()),
        }
    }
}

/// The operator's line of a number's part of docs/REFUSALS.md, where it needs no more than the number.
const fn advice_on(number: u32) -> &'static str {
    match number {
        4 => "remove one of the two from that task; in a text, lower the count before them too.",
        5 => "find the way from that task through predecessors back to it. One of these edges is wrong.",
        6 => {
            "use more workers or more slots, or give some of the roots a common predecessor. A preview has room for 32 \
             roots at most, with 4 workers and 8 slots; the engine for all, with 16 workers and 64 slots."
        }
        7 => "choose another worker.",
        9 => "take a step that suits, or choose another worker.",
        10 => {
            "after a refused Fetch try Release, after a refused Release try Fetch; if both are refused, go on with \
             another worker."
        }
        14 => {
            "put a task without weight and predecessors first, and one without weight last, each where it is missing. \
             With the first, every other task's number rises by one, among the predecessors too. A text has at most 1,022 \
             tasks besides the dummies: a larger job has to be split."
        }
        15 => {
            "choose a window of at least one entry and of no more than are recorded; complete a task first if none is."
        }
        // 1, 8 and 12 are faults of the host, as are numbers that the page doesn't have
        _ => "report it.",
    }
}

/// Prints the meaning in words.
impl fmt::Display for Refusal {
    fn fmt(&self, to: &mut fmt::Formatter<'_>) -> fmt::Result {
        match self {
            Refusal::WrongLength => {
                to.write_str("a list has the wrong length: ")?;
                to.write_str("there has to be one predecessor start more than there are weights")
            }
            Refusal::BeyondLimit { limit } | Refusal::BeyondPreview { limit } => limit.fmt(to),
            Refusal::BadPart { task, fault } => bad_part(to, *task, fault),
            Refusal::BadEnds { fault, .. } => bad_ends(to, fault),
            Refusal::BadEdge {
                place,
                from,
                to: task,
                tasks,
            } => {
                let missing = if (task.number() as usize) < *tasks { from } else { task };
                write!(to, "edge {place} leads from task {from} to task {task}: ")?;
                write!(to, "task {missing} doesn't exist: there {}", counted(*tasks, "task"))
            }
            Refusal::NoSuchTask { task, tasks } => {
                write!(to, "task {task} doesn't exist: there {}", counted(*tasks, "task"))
            }
            Refusal::NoSuccessorsYet { task } => {
                write!(
                    to,
                    "the successors of task {task} aren't known before begin: begin first"
                )
            }
            Refusal::PredecessorTwice { task } => write!(to, "a predecessor stands twice in task {task}"),
            Refusal::Cycle { task, path } if path.is_empty() => {
                write!(to, "the tasks form a cycle, and task {task} is on it")
            }
            Refusal::Cycle { task, path } => {
                to.write_str("the tasks form a cycle: ")?;
                path.iter().try_for_each(|on| write!(to, "{on} after "))?;
                task.fmt(to)
            }
            Refusal::TooManyRoots { roots, room } => {
                write!(to, "too many roots for the rings: {roots} tasks have no predecessors, ")?;
                write!(to, "and there is room for {room}")
            }
            Refusal::NoSuchWorker { worker, workers } => {
                write!(
                    to,
                    "worker {worker} doesn't exist: there {}",
                    counted(*workers, "worker")
                )
            }
            Refusal::NotBegun => to.write_str("there was no accepted begin: begin first"),
            Refusal::DamagedWord => {
                to.write_str("a damaged word in the lent memory: something else than the engine has written it")
            }
            Refusal::WrongPhase { phase } => {
                let suits = match phase {
                    Phase::Idle => "it is idle, which suits Release and Fetch",
                    Phase::Fetched => "it has fetched a task, which suits Start",
                    Phase::Running => "it is running its task, which suits Complete",
                };
                write!(to, "the step doesn't suit the worker's phase: {suits}")
            }
            Refusal::NothingToFetch => to.write_str("nothing there to fetch: no task waits in the worker's rings"),
            Refusal::NothingToRelease => {
                to.write_str("nothing there to release: no completed task of the worker has a successor left")
            }
            Refusal::NoRoom { task } | Refusal::NoRoomForFirst { task } => {
                write!(to, "no room for task {task}: all rings that the worker fills are full")
            }
            Refusal::RingFull { task, owner } => {
                write!(to, "no room for a copy of task {task}: it is fixed to worker {owner}, ")?;
                write!(to, "whose ring that the worker fills is full")
            }
            Refusal::RecordFull => {
                to.write_str("the record is full: every task, or every copy of a weak job, is recorded already")
            }
            Refusal::BadLayout { line } => write!(to, "the text breaks the layout in line {line}"),
            Refusal::BadFirstLine { line } => {
                write!(to, "the text breaks the layout in line {line}, which isn't n alone")
            }
            Refusal::TextEnds {
                expected, found, whole, ..
            } => text_ends(to, *expected, *found, *whole),
            Refusal::NoDummies { lack, .. } => lack.fmt(to),
            Refusal::BadWindow { entries: 0 } => to.write_str("there is no load window: no task is recorded"),
            Refusal::BadWindow { entries } => {
                write!(
                    to,
                    "a load window has from 1 to {entries} entries: so many are recorded"
                )
            }
            Refusal::UnexpectedReply { words } => {
                write!(
                    to,
                    "the library accepts the call with a reply that isn't known: {words:?}"
                )
            }
            Refusal::Unknown { number, detail } => {
                write!(
                    to,
                    "the library answers number {number} and detail {detail}, which isn't known"
                )
            }
        }
    }
}

impl Error for Refusal {}

/// A task's part of a table.
fn bad_part(to: &mut fmt::Formatter<'_>, task: TaskId, fault: &Fault) -> fmt::Result {
    match *fault {
        Fault::Predecessor { number, tasks } => {
            write!(to, "task {task} has predecessor {number}, which doesn't exist: ")?;
            write!(to, "there {}", counted(tasks, "task"))
        }
        Fault::Starts { from, to: end, .. } if from > end => {
            write!(to, "the starts of task {task} fall, from {from} to {end}")
        }
        Fault::Starts { to: end, edges, .. } => {
            write!(to, "the starts of task {task} lead to place {end}, ")?;
            write!(to, "and there {}", counted(edges, "predecessor"))
        }
        _ => write!(
            to,
            "task {task} has a bad start or a bad task number in its part of a table"
        ),
    }
}

/// The first and the last start.
fn bad_ends(to: &mut fmt::Formatter<'_>, fault: &Fault) -> fmt::Result {
    match *fault {
        Fault::FirstStart { start } => write!(to, "the first predecessor start is {start}, and has to be 0"),
        Fault::LastStart { start, edges, left } => {
            write!(to, "predecessor {left} at place {start} belongs to no task: ")?;
            write!(
                to,
                "the last start is {start}, and there {}",
                counted(edges, "predecessor")
            )
        }
        _ => to.write_str("the first predecessor start isn't 0, or the last one isn't the number of predecessors"),
    }
}

/// How many task lines there have to be, and how many there are.
fn text_ends(to: &mut fmt::Formatter<'_>, expected: Option<usize>, found: usize, whole: Option<usize>) -> fmt::Result {
    let Some(expected) = expected else {
        return to.write_str("the text ends too early: it has no line with n");
    };
    let n = expected.saturating_sub(2);
    write!(
        to,
        "the text ends too early: n is {n}, so {expected} task lines have to follow, "
    )?;
    write!(to, "and there {}", counted(found, "task line"))?;
    whole.map_or(Ok(()), |n| write!(to, "; with n {n} it would be whole"))
}

/// "is 1 task", "are 2 tasks".
fn counted(count: usize, what: &str) -> String {
    match count {
        1 => format!("is 1 {what}"),
        _ => format!("are {count} {what}s"),
    }
}

#[cfg(test)]
mod tests {
    use super::*;

    /// Every call on a graph of four tasks, two workers and two slots.
    fn every_call(tables: &Tables) -> Vec<Asked<'_>> {
        let [workers, slots] = [2; 2];
        let text = b"2\n0 0 0\n";
        let steps = Step::ALL
            .iter()
            .flat_map(|&step| [false, true].map(|begun| (step, begun)));
        let steps = steps.map(|(step, begun)| asked(tables, step, begun));
        let by_preview = Asked::Step {
            whose: Whose::Preview,
            step: Step::Release,
            tables,
            workers,
            slots,
            begun: true,
            fixed: &[],
        };
        // task 1 is fixed to worker 0, the others aren't
        let weak = Asked::Step {
            whose: Whose::Engine,
            step: Step::Release,
            tables,
            workers,
            slots,
            begun: true,
            fixed: &[65_535, 0, 65_535, 65_535],
        };
        let begins = [Whose::Engine, Whose::Preview].map(|whose| Asked::Begin {
            whose,
            tables,
            workers,
            slots,
        });
        let sides = [
            (Side::Predecessors, false),
            (Side::Successors, false),
            (Side::Successors, true),
        ];
        let lookups = sides.map(|(side, begun)| Asked::Lookup { side, tables, begun });
        let others = [
            Asked::Text { text },
            Asked::Check { tables },
            Asked::Save { tables },
            Asked::Windows {
                tables,
                workers,
                entries: 3,
            },
            by_preview,
            weak,
        ];
        steps.chain(lookups).chain(begins).chain(others).collect()
    }

    fn asked(tables: &Tables, step: Step, begun: bool) -> Asked<'_> {
        Asked::Step {
            whose: Whose::Engine,
            step,
            tables,
            workers: 2,
            slots: 2,
            begun,
            fixed: &[],
        }
    }

    fn diamond() -> Tables {
        Tables::from_edges([0, 5, 3, 0], [(0, 1), (0, 2), (1, 3), (2, 3)])
    }

    /// Whatever the library answers to whatever call, number and detail come out as they went in, and it prints.
    #[test]
    fn every_number_and_detail_is_carried() {
        let tables = diamond();
        for asked in every_call(&tables) {
            assert_eq!(asked.answered(0, 0), Ok(()));
            for detail in [0, 1, 2, 3, 4, 5, 65_535, u32::MAX] {
                for number in (u32::from(detail == 0)..40).chain([u32::MAX]) {
                    let refusal = asked.answered(number, detail).unwrap_err();
                    assert_eq!((refusal.number(), refusal.detail()), (number, detail), "{asked:?}");
                    assert!(!refusal.to_string().is_empty());
                }
            }
        }
    }

    /// What a job doesn't answer: 12, and numbers of other versions.
    #[test]
    fn refusals_that_no_job_meets() {
        let tables = diamond();
        let full = asked(&tables, Step::Complete, true).answered(12, 0).unwrap_err();
        assert_eq!(full, Refusal::RecordFull);
        let words = "the record is full: every task, or every copy of a weak job, is recorded already";
        assert_eq!(full.to_string(), words);
        let damaged = asked(&tables, Step::Fetch, true).answered(8, 0).unwrap_err();
        assert_eq!(damaged, Refusal::DamagedWord);
        let words = "a damaged word in the lent memory: something else than the engine has written it";
        assert_eq!(damaged.to_string(), words);
        let text = Asked::Text { text: b"" };
        let unknown = text.answered(99, 3).unwrap_err();
        assert_eq!(unknown, Refusal::Unknown { number: 99, detail: 3 });
        let words = "the library answers number 99 and detail 3, which isn't known";
        assert_eq!(unknown.to_string(), words);
        // "An accepted call of the exports for C answers number 0 and detail 0"
        let accepted = text.answered(0, 3).unwrap_err();
        assert_eq!(accepted, Refusal::Unknown { number: 0, detail: 3 });
        // a phase and a detail that the table doesn't have
        let phase = asked(&tables, Step::Start, true).answered(9, 3).unwrap_err();
        assert_eq!(phase, Refusal::Unknown { number: 9, detail: 3 });
        let detail = text.answered(1, 1).unwrap_err();
        assert_eq!(detail, Refusal::Unknown { number: 1, detail: 1 });
        // 14 of tables that have their dummies
        let save = Asked::Save { tables: &tables };
        let dummies = save.answered(14, 0).unwrap_err();
        let unknown = Refusal::NoDummies {
            lack: Lack::Unknown,
            missing: Missing::Unknown,
        };
        assert_eq!(dummies, unknown);
        assert_eq!(dummies.to_string(), "the tables lack a text's dummies");
    }
}
