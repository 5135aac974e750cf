//! What is wrong in a table's part or at its ends.

use crate::ids::TaskId;
use crate::limits::MAX_TASKS;
use crate::tables::Tables;

/// What is wrong in a task's part of the predecessor table, or at the table's ends; the first fault of several.
#[derive(Clone, Copy, Debug, PartialEq, Eq, Hash)]
#[non_exhaustive]
pub enum Fault {
    /// A predecessor that isn't there.
    Predecessor {
        /// The number that stands there.
        number: TaskId,
        /// How many tasks there are.
        tasks: usize,
    },
    /// The task's starts fall, or lead beyond the table.
    Starts {
        /// Where its predecessors would begin.
        from: u32,
        /// Where they would end, its next start.
        to: u32,
        /// How many predecessors there are in all.
        edges: usize,
    },
    /// The first start isn't 0.
    FirstStart {
        /// What it is.
        start: u32,
    },
    /// The last start isn't the number of predecessors, so that the predecessors behind it belong to no task. Of
    /// [`Tables::from_edges`] it says that edges lead to tasks that aren't there.
    LastStart {
        /// What it is.
        start: u32,
        /// How many predecessors there are in all.
        edges: usize,
        /// The first one that belongs to no task.
        left: TaskId,
    },
    /// None of these in the predecessor table.
    Unknown,
}

impl Fault {
    /// In the task's part.
    pub(crate) fn of_part(tables: &Tables, task: TaskId) -> Fault {
        let (tasks, edges) = (tables.weights.len(), tables.preds.len());
        let place = task.number() as usize;
        let start = |place: usize| tables.pred_starts.get(place).copied();
        let Some((from, to)) = start(place).zip(start(place.saturating_add(1))) else {
            return Fault::Unknown;
        };
        let Some(part) = tables.preds.get(from as usize..to as usize) else {
            return Fault::Starts { from, to, edges };
        };
        let number = part.iter().find(|pred| pred.number() as usize >= tasks);
        number.map_or(Fault::Unknown, |&number| Fault::Predecessor { number, tasks })
    }

    /// What an operator does about it: the cells of docs/REFUSALS.md.
    pub(crate) const fn advice(&self) -> &'static str {
        match self {
            Fault::Predecessor { number, .. } if number.number() as usize >= MAX_TASKS => {
                "correct that predecessor. The reader takes any number there; begin judges it."
            }
            Fault::Predecessor { .. } => {
                "correct that predecessor, or add all tasks up to it; in a text, raise n too. The reader takes any number \
                 there; begin judges it."
            }
            Fault::LastStart { .. } => {
                "look for an edge that leads to a task that isn't there, or for a start that was filled wrongly."
            }
            // no text and no edges make such tables
            Fault::Starts { .. } | Fault::FirstStart { .. } | Fault::Unknown => "report it.",
        }
    }

    /// At the ends of a table whose parts are right.
    pub(crate) fn of_ends(tables: &Tables) -> Fault {
        match *tables.pred_starts.as_slice() {
            [start, ..] if start > 0 => Fault::FirstStart { start },
            [.., start] => {
                let left = tables.preds.get(start as usize);
                left.map_or(Fault::Unknown, |&left| Fault::LastStart {
                    start,
                    edges: tables.preds.len(),
                    left,
                })
            }
            [] => Fault::Unknown,
        }
    }
}
