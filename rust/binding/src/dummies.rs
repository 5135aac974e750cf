//! The two dummies of a text: its first and its last task.

use crate::ids::TaskId;
use crate::limits::MAX_TASKS;
use crate::tables::Tables;
use std::fmt;

/// Why tables lack a text's dummies, two tasks without weight, first and last, the first without predecessors; the first
/// reason of several.
#[derive(Clone, Copy, Debug, PartialEq, Eq, Hash)]
#[non_exhaustive]
pub enum Lack {
    /// There are fewer than two tasks.
    Tasks {
        /// How many there are.
        tasks: usize,
    },
    /// Task 0 has weight.
    FirstWeight {
        /// Its weight.
        weight: u32,
    },
    /// Task 0 has predecessors.
    FirstPredecessors {
        /// How many.
        count: usize,
    },
    /// The last task has weight.
    LastWeight {
        /// That task.
        task: TaskId,
        /// Its weight.
        weight: u32,
    },
    /// None of these: another version of the library may have others.
    Unknown,
}

impl Lack {
    /// Of tables that are a graph.
    pub(crate) fn of(tables: &Tables) -> Lack {
        let tasks = tables.weights.len();
        let &[first, .., last] = tables.weights.as_slice() else {
            return Lack::Tasks { tasks };
        };
        let count = tables.predecessors(TaskId::new(0)).len();
        match (first, count, last) {
            (1.., _, _) => Lack::FirstWeight { weight: first },
            (_, 1.., _) => Lack::FirstPredecessors { count },
            (_, _, 1..) => Lack::LastWeight {
                // more than 1,024 tasks are refused with 2
                task: TaskId::new(tasks as u32 - 1),
                weight: last,
            },
            _ => Lack::Unknown,
        }
    }
}

/// Which dummies have to be added before tables can be saved as a text.
#[derive(Clone, Copy, Debug, PartialEq, Eq, Hash)]
#[non_exhaustive]
pub enum Missing {
    /// The first one. With it every other task's number rises by one.
    First,
    /// The last one.
    Last,
    /// The first and the last one.
    Both,
    /// One or both, with which there would be more tasks than [`MAX_TASKS`](crate::limits::MAX_TASKS).
    TooMany,
    /// None: another version of the library may ask for more.
    Unknown,
}

impl Missing {
    /// Of tables that are a graph.
    pub(crate) fn of(tables: &Tables) -> Missing {
        let tasks = tables.weights.len();
        let free = tables.predecessors(TaskId::new(0)).is_empty();
        let first = tables.weights.first() != Some(&0) || !free;
        // one task can't be both
        let last = tasks < 2 || tables.weights.last() != Some(&0);
        match (first, last) {
            (false, false) => Missing::Unknown,
            _ if tasks + usize::from(first) + usize::from(last) > MAX_TASKS => Missing::TooMany,
            (true, true) => Missing::Both,
            (true, false) => Missing::First,
            (false, true) => Missing::Last,
        }
    }
}

/// Prints what is lacking, and why.
impl fmt::Display for Lack {
    fn fmt(&self, to: &mut fmt::Formatter<'_>) -> fmt::Result {
        to.write_str("the tables lack a text's dummies")?;
        match self {
            Lack::Tasks { tasks: 1 } => to.write_str(": there is 1 task, and a text has at least 2"),
            Lack::Tasks { tasks } => write!(to, ": there are {tasks} tasks, and a text has at least 2"),
            Lack::FirstWeight { weight } => write!(to, ": task 0 has weight {weight}"),
            Lack::FirstPredecessors { count: 1 } => to.write_str(": task 0 has 1 predecessor"),
            Lack::FirstPredecessors { count } => write!(to, ": task 0 has {count} predecessors"),
            Lack::LastWeight { task, weight } => write!(to, ": task {task}, the last one, has weight {weight}"),
            Lack::Unknown => Ok(()),
        }
    }
}
