//! The limits of document 01, and those of the preview. Beyond them a call is refused with 2; here they bound what is
//! allocated, and are printed.

use crate::callers::Whose;
use crate::ids::TaskId;
use crate::tables::Tables;
use std::fmt;

/// Tasks of a graph, at most; the two dummies of a text count.
pub const MAX_TASKS: usize = 1_024;

/// Edges of a graph, at most.
pub const MAX_EDGES: usize = 8_192;

/// The weight of a task, at most.
pub const MAX_WEIGHT: u32 = 65_535;

/// Workers, at most; at least 1.
pub const MAX_WORKERS: usize = 16;

/// Slots of a ring, at least; a ring holds as many tasks as it has slots.
pub const MIN_SLOTS: usize = 2;

/// Slots of a ring, at most.
pub const MAX_SLOTS: usize = 64;

/// Bytes of a text, at most.
pub const MAX_TEXT: usize = 65_536;

/// Bytes that always suffice for the text of a graph: no call is refused for a longer one.
pub const MAX_WRITTEN: usize = 57_349;

/// Tasks of a [preview](crate::Preview)'s graph, at most.
pub const PREVIEW_MAX_TASKS: usize = 128;

/// Edges of a preview's graph, at most.
pub const PREVIEW_MAX_EDGES: usize = 512;

/// Workers of a preview, at most; at least 1.
pub const PREVIEW_MAX_WORKERS: usize = 4;

/// Slots of a preview's ring, at most; at least [`MIN_SLOTS`].
pub const PREVIEW_MAX_SLOTS: usize = 8;

/// Which limit a call goes beyond, where the job, the tables or the text show it; the first of several.
#[derive(Clone, Copy, Debug, PartialEq, Eq, Hash)]
#[non_exhaustive]
pub enum Limit {
    /// More than [`MAX_TASKS`].
    Tasks {
        /// How many there are.
        tasks: usize,
    },
    /// More than [`MAX_EDGES`].
    Edges {
        /// How many there are.
        edges: usize,
    },
    /// None, or more than [`MAX_WORKERS`].
    Workers {
        /// How many were asked for.
        workers: usize,
    },
    /// Less than [`MIN_SLOTS`] or more than [`MAX_SLOTS`].
    Slots {
        /// How many were asked for.
        slots: usize,
    },
    /// More than [`MAX_WEIGHT`].
    Weight {
        /// The first such task.
        task: TaskId,
        /// Its weight.
        weight: u32,
    },
    /// By a preview: more than [`PREVIEW_MAX_TASKS`].
    PreviewTasks {
        /// How many there are.
        tasks: usize,
    },
    /// By a preview: more than [`PREVIEW_MAX_EDGES`].
    PreviewEdges {
        /// How many there are.
        edges: usize,
    },
    /// By a preview: none, or more than [`PREVIEW_MAX_WORKERS`].
    PreviewWorkers {
        /// How many were asked for.
        workers: usize,
    },
    /// By a preview: less than [`MIN_SLOTS`] or more than [`PREVIEW_MAX_SLOTS`].
    PreviewSlots {
        /// How many were asked for.
        slots: usize,
    },
    /// A text of more than [`MAX_TEXT`] bytes.
    Text {
        /// How many it has.
        bytes: usize,
    },
    /// A text that asks for more tasks than [`MAX_TASKS`].
    TextTasks {
        /// How many, n and its two dummies.
        tasks: usize,
    },
    /// A text that has more predecessors than [`MAX_EDGES`].
    TextEdges {
        /// The line with which they are too many, counted from 1.
        line: u32,
    },
    /// None of these: another version of the library may have others.
    Unknown,
}

impl Limit {
    pub(crate) fn of_sizes(tables: &Tables, whose: Whose) -> Option<Limit> {
        let (tasks, edges) = (tables.weights.len(), tables.preds.len());
        let (by_tasks, by_edges) = match whose {
            Whose::Engine => (Limit::Tasks { tasks }, Limit::Edges { edges }),
            Whose::Preview => (Limit::PreviewTasks { tasks }, Limit::PreviewEdges { edges }),
        };
        if tasks > whose.tasks() {
            return Some(by_tasks);
        }
        (edges > whose.edges()).then_some(by_edges)
    }

    pub(crate) fn of_numbers(workers: usize, slots: usize, whose: Whose) -> Option<Limit> {
        let (by_workers, by_slots) = match whose {
            Whose::Engine => (Limit::Workers { workers }, Limit::Slots { slots }),
            Whose::Preview => (Limit::PreviewWorkers { workers }, Limit::PreviewSlots { slots }),
        };
        if !(1..=whose.workers()).contains(&workers) {
            return Some(by_workers);
        }
        let fits = (MIN_SLOTS..=whose.slots()).contains(&slots);
        (!fits).then_some(by_slots)
    }

    /// The first limit that a begin goes beyond.
    pub(crate) fn of_job(tables: &Tables, workers: usize, slots: usize, whose: Whose) -> Option<Limit> {
        Limit::of_sizes(tables, whose)
            .or_else(|| Limit::of_numbers(workers, slots, whose))
            .or_else(|| Limit::of_weights(tables))
    }

    pub(crate) fn of_weights(tables: &Tables) -> Option<Limit> {
        let mut weights = (0..).map(TaskId::new).zip(tables.weights.iter().copied());
        let (task, weight) = weights.find(|&(_, weight)| weight > MAX_WEIGHT)?;
        Some(Limit::Weight { task, weight })
    }
}

impl Limit {
    /// What an operator does about it: the cells of docs/REFUSALS.md.
    pub(crate) const fn advice(&self) -> &'static str {
        match self {
            Limit::Tasks { .. } | Limit::Edges { .. } | Limit::TextEdges { .. } => {
                "the job is too large, and has to be split."
            }
            Limit::TextTasks { .. } => {
                "correct the line with n if it is wrong; else the job is too large, and has to be split."
            }
            Limit::Workers { .. } => "choose from 1 to 16 workers.",
            Limit::Slots { .. } => "choose from 2 to 64 slots.",
            Limit::Weight { .. } => "weigh all tasks in a larger unit, or split that task.",
            Limit::Text { .. } => {
                "leave out comments, blank lines, spare spaces and zeros. If it is a job's text, and too long without \
                 them, the job is too large, and has to be split."
            }
            Limit::PreviewTasks { .. } | Limit::PreviewEdges { .. } => {
                "split the job, or keep the engine's limits and begin it there. As it is, the engine doesn't take it \
                 either."
            }
            Limit::PreviewWorkers { .. } => {
                "choose from 1 to 4 workers. As it is, the engine doesn't take the job either."
            }
            Limit::PreviewSlots { .. } => {
                "choose from 2 to 8 slots. As it is, the engine doesn't take the job either."
            }
            Limit::Unknown => {
                "by what is beyond, choose another number of workers or slots, weigh all tasks in a larger unit, or \
                 shorten the text; a job of too many tasks or edges has to be split. What is too large for a preview may \
                 be begun by the engine."
            }
        }
    }

    /// The same of a preview whose job keeps the engine's limits.
    pub(crate) const fn preview_advice(&self) -> &'static str {
        match self {
            Limit::PreviewTasks { .. } | Limit::PreviewEdges { .. } => {
                "begin the job by the engine, whose limits it keeps, or split it."
            }
            Limit::PreviewWorkers { .. } => {
                "choose from 1 to 4 workers, or begin the job by the engine, whose limits it keeps."
            }
            Limit::PreviewSlots { .. } => {
                "choose from 2 to 8 slots, or begin the job by the engine, whose limits it keeps."
            }
            _ => self.advice(),
        }
    }
}

/// Prints what is beyond which limit.
impl fmt::Display for Limit {
    fn fmt(&self, to: &mut fmt::Formatter<'_>) -> fmt::Result {
        match self {
            Limit::Tasks { tasks } => write!(to, "{tasks} tasks are beyond the limit: at most {MAX_TASKS}"),
            Limit::Edges { edges } => write!(to, "{edges} edges are beyond the limit: at most {MAX_EDGES}"),
            Limit::Workers { workers } => {
                write!(
                    to,
                    "the number of workers, {workers}, is beyond its limit: 1 to {MAX_WORKERS}"
                )
            }
            Limit::Slots { slots } => {
                write!(
                    to,
                    "the number of slots, {slots}, is beyond its limit: {MIN_SLOTS} to {MAX_SLOTS}"
                )
            }
            Limit::Weight { task, weight } => {
                write!(
                    to,
                    "the weight of task {task}, {weight}, is beyond its limit: at most {MAX_WEIGHT}"
                )
            }
            Limit::PreviewTasks { tasks } => {
                write!(
                    to,
                    "{tasks} tasks are beyond the preview's limit: at most {PREVIEW_MAX_TASKS}"
                )
            }
            Limit::PreviewEdges { edges } => {
                write!(
                    to,
                    "{edges} edges are beyond the preview's limit: at most {PREVIEW_MAX_EDGES}"
                )
            }
            Limit::PreviewWorkers { workers } => {
                write!(
                    to,
                    "the number of workers, {workers}, is beyond the preview's limit: 1 to {PREVIEW_MAX_WORKERS}"
                )
            }
            Limit::PreviewSlots { slots } => {
                write!(
                    to,
                    "the number of slots, {slots}, is beyond the preview's limit: {MIN_SLOTS} to {PREVIEW_MAX_SLOTS}"
                )
            }
            Limit::Text { bytes } => write!(to, "a text of {bytes} bytes is beyond the limit: at most {MAX_TEXT}"),
            Limit::TextTasks { tasks } => write!(
                to,
                "the text asks for {tasks} tasks, its two dummies among them, which are beyond the limit: at most {MAX_TASKS}"
            ),
            Limit::TextEdges { line } => write!(
                to,
                "with line {line} the text has more edges than the limit: at most {MAX_EDGES}"
            ),
            Limit::Unknown => to.write_str("a size, a weight or the text is beyond its limit"),
        }
    }
}
