//! A task graph as its tables.

use crate::ffi;
use crate::ids::TaskId;
use crate::limits::{MAX_EDGES, MAX_TASKS, MAX_WRITTEN};
use crate::refusal::{Asked, Refusal};
use crate::reply;
use std::collections::btree_map::{BTreeMap, Entry};
use std::collections::VecDeque;

/// A task graph: the weight of each task, and the predecessors of all tasks in one list.
///
/// The predecessors of task t stand in `preds` from place `pred_starts[t]` up to but not including
/// `pred_starts[t + 1]`, so there is one start more than there are tasks: the first is 0, the last is the number of
/// edges.
///
/// Nothing is judged when the fields are filled. [`Tables::check`] judges them, and [`Job::begin`](crate::Job::begin)
/// does again.
///
/// ```
/// use yolluvek::{Job, Refusal, TaskId, Tables};
///
/// // tasks 1 and 2 after task 0, task 3 after both
/// let tables = Tables {
///     weights: vec![0, 5, 3, 0],
///     pred_starts: vec![0, 0, 1, 2, 4],
///     preds: [0, 0, 1, 2].map(TaskId::new).to_vec(),
/// };
/// tables.check()?;
/// let mut job = Job::from_tables(tables, 2, 4);
/// job.begin()?;
/// # Ok::<(), Refusal>(())
/// ```
#[derive(Clone, Debug, PartialEq, Eq, Hash)]
pub struct Tables {
    /// The weight of each task, at most 65,535; their number is N, at most 1,024.
    pub weights: Vec<u32>,
    /// Where the predecessors of each task begin, and the number of all of them: N + 1 words.
    pub pred_starts: Vec<u32>,
    /// The predecessors of each task in turn; their number is E, at most 8,192.
    pub preds: Vec<TaskId>,
}

/// The graph without tasks.
impl Default for Tables {
    fn default() -> Tables {
        Tables {
            weights: Vec::new(),
            pred_starts: vec![0],
            preds: Vec::new(),
        }
    }
}

impl Tables {
    /// The tables of a graph with these weights, one for each task, and these edges, each from a predecessor to the task
    /// that waits for it. The predecessors of a task keep the order of its edges.
    ///
    /// Nothing is judged here. An edge to a task that isn't there belongs to no task's part; it stands after the last
    /// one, so that [`check`](Tables::check) and [`Job::begin`](crate::Job::begin) refuse the tables with 3. Which task
    /// it leads to the tables don't tell: [`try_from_edges`](Tables::try_from_edges) names the edge.
    ///
    /// ```
    /// use yolluvek::{Refusal, Tables};
    ///
    /// // tasks 1 and 2 after task 0, task 3 after both
    /// let tables = Tables::from_edges([0, 5, 3, 0], [(0, 1), (0, 2), (1, 3), (2, 3)]);
    /// let text = b"2\n0 0 0\n1 5 1 0\n2 3 1 0\n3 0 2 1 2\n";
    /// assert_eq!(tables, Tables::from_text(text)?);
    ///
    /// let refusal = Tables::from_edges([0, 5], [(0, 2)]).check().unwrap_err();
    /// assert_eq!((refusal.number(), refusal.detail()), (3, 2));
    /// assert_eq!(
    ///     refusal.to_string(),
    ///     "predecessor 0 at place 0 belongs to no task: the last start is 0, and there is 1 predecessor"
    /// );
    /// # Ok::<(), Refusal>(())
    /// ```
    pub fn from_edges(
        weights: impl Into<Vec<u32>>,
        edges: impl IntoIterator<Item = (impl Into<TaskId>, impl Into<TaskId>)>,
    ) -> Tables {
        let weights = weights.into();
        let edges = edges.into_iter().map(|(from, to)| (from.into(), to.into()));
        let mut edges: Vec<(TaskId, TaskId)> = edges.collect();
        // stable, so a task's predecessors keep their order
        edges.sort_by_key(|&(_, to)| to);
        let start = |task: usize| edges.partition_point(|(_, to)| (to.number() as usize) < task) as u32;
        Tables {
            pred_starts: (0..=weights.len()).map(start).collect(),
            preds: edges.iter().map(|&(from, _)| from).collect(),
            weights,
        }
    }

    /// The tables of [`from_edges`](Tables::from_edges), [checked](Tables::check). An edge from or to a task that isn't
    /// there is named.
    ///
    /// # Errors
    ///
    /// Refused as by the check; 3 is [`BadEdge`](Refusal::BadEdge) here.
    ///
    /// ```
    /// use yolluvek::Tables;
    ///
    /// let refusal = Tables::try_from_edges([0, 5], [(0, 1), (1, 2)]).unwrap_err();
    /// assert_eq!((refusal.number(), refusal.detail()), (3, 2));
    /// assert_eq!(
    ///     refusal.to_string(),
    ///     "edge 1 leads from task 1 to task 2: task 2 doesn't exist: there are 2 tasks"
    /// );
    /// ```
    pub fn try_from_edges(
        weights: impl Into<Vec<u32>>,
        edges: impl IntoIterator<Item = (impl Into<TaskId>, impl Into<TaskId>)>,
    ) -> Result<Tables, Refusal> {
        let edges = edges.into_iter().map(|(from, to)| (from.into(), to.into()));
        let edges: Vec<(TaskId, TaskId)> = edges.collect();
        let tables = Tables::from_edges(weights, edges.iter().copied());
        let tasks = tables.weights.len();
        let missing = |task: TaskId| task.number() as usize >= tasks;
        let Err(refusal) = tables.check() else {
            return Ok(tables);
        };
        // the first edge of the task in the detail, N for an edge that leads to no task
        let at_fault = |&(_, (from, to)): &(usize, (TaskId, TaskId))| match refusal {
            Refusal::BadPart { task, .. } => to == task && missing(from),
            Refusal::BadEnds { .. } => missing(to),
            _ => false,
        };
        let edge = edges.into_iter().enumerate().find(at_fault);
        Err(edge.map_or(refusal, |(place, (from, to))| Refusal::BadEdge {
            place,
            from,
            to,
            tasks,
        }))
    }

    /// Reads a text of the Standard Task Graph Set, without communication costs.
    ///
    /// # Errors
    ///
    /// Refused with 2 for a text that is beyond a limit, and with 13 and the line for one that breaks the layout.
    /// Predecessor numbers aren't judged here.
    ///
    /// ```
    /// use yolluvek::{Refusal, TaskId, Tables};
    ///
    /// let tables = Tables::from_text(b"1\n0 0 0\n1 7 1 0\n2 0 1 1\n")?;
    /// assert_eq!(tables.weights, [0, 7, 0]);
    /// assert_eq!(tables.pred_starts, [0, 0, 1, 2]);
    /// assert_eq!(tables.preds, [0, 1].map(TaskId::new));
    ///
    /// // the third line promises two predecessors and has one
    /// let refusal = Tables::from_text(b"1\n0 0 0\n1 7 2 0\n2 0 1 1\n").unwrap_err();
    /// assert_eq!(refusal, Refusal::BadLayout { line: 3 });
    /// # Ok::<(), Refusal>(())
    /// ```
    pub fn from_text(text: &[u8]) -> Result<Tables, Refusal> {
        let mut weights = vec![0; MAX_TASKS];
        let mut pred_starts = vec![0; MAX_TASKS + 1];
        let mut preds = vec![TaskId::new(0); MAX_EDGES];
        let reply = ffi::read_text(text, &mut weights, &mut pred_starts, &mut preds);
        Asked::Text { text }.answered(reply.number, reply.detail)?;
        let (tasks, edges) = reply::sizes(reply)?;
        Ok(Tables {
            weights: first(&weights, tasks),
            pred_starts: first(&pred_starts, tasks + 1),
            preds: first(&preds, edges),
        })
    }

    /// Saves the graph as a text of the Standard Task Graph Set, for another scheduler or for [`from_text`](Tables::from_text),
    /// which gives the same tables again: single spaces between fields, LF after every line, no leading zeros, no
    /// comments, predecessors in the tables' order. A [`Job`](crate::Job) is saved by its
    /// [`tables`](crate::Job::tables), also during a run.
    ///
    /// # Errors
    ///
    /// Refused as by [`check`](Tables::check), then with 14 where there are no dummies: a text has at least two tasks,
    /// the first and the last without weight, the first without predecessors.
    ///
    /// ```
    /// use yolluvek::{Lack, Missing, Refusal, Tables};
    ///
    /// // tasks 1 and 2 after task 0, task 3 after both
    /// let tables = Tables::from_edges([0, 5, 3, 0], [(0, 1), (0, 2), (1, 3), (2, 3)]);
    /// let text = tables.to_text()?;
    /// assert_eq!(text, b"2\n0 0 0\n1 5 1 0\n2 3 1 0\n3 0 2 1 2\n");
    /// assert_eq!(Tables::from_text(&text)?, tables);
    ///
    /// let weighed = Tables::from_edges([4, 6], [(0, 1)]);
    /// let refusal = weighed.to_text().unwrap_err();
    /// let (lack, missing) = (Lack::FirstWeight { weight: 4 }, Missing::Both);
    /// assert_eq!(refusal, Refusal::NoDummies { lack, missing });
    /// assert_eq!((refusal.number(), refusal.detail()), (14, 0));
    /// assert_eq!(refusal.to_string(), "the tables lack a text's dummies: task 0 has weight 4");
    /// # Ok::<(), Refusal>(())
    /// ```
    pub fn to_text(&self) -> Result<Vec<u8>, Refusal> {
        let Tables {
            weights,
            pred_starts,
            preds,
        } = self;
        let mut text = vec![0; MAX_WRITTEN];
        let reply = ffi::write_text(weights, pred_starts, preds, &mut text);
        Asked::Save { tables: self }.answered(reply.number, reply.detail)?;
        Ok(first(&text, reply::used(reply)?))
    }

    /// The check that begin makes too, without workers and slots.
    ///
    /// # Errors
    ///
    /// Refused with 2 for sizes and weights, 1 for the number of starts, 3 for bad starts and predecessors, 4 for a
    /// predecessor that stands twice, 5 for a cycle, the first of them in this order.
    ///
    /// ```
    /// use yolluvek::Tables;
    ///
    /// // task 1 after task 2, task 2 after task 1
    /// let tables = Tables::from_edges([1, 1, 1], [(2, 1), (1, 2)]);
    /// let refusal = tables.check().unwrap_err();
    /// assert_eq!((refusal.number(), refusal.detail()), (5, 1));
    /// assert_eq!(refusal.to_string(), "the tasks form a cycle: 1 after 2 after 1");
    /// ```
    pub fn check(&self) -> Result<(), Refusal> {
        let Tables {
            weights,
            pred_starts,
            preds,
        } = self;
        let reply = ffi::check_graph(MAX_TASKS, MAX_EDGES, weights, pred_starts, preds);
        Asked::Check { tables: self }.answered(reply.number, reply.detail)
    }
}

impl Tables {
    /// A task's predecessors as the tables have them; none where its part is bad.
    pub(crate) fn predecessors(&self, task: TaskId) -> &[TaskId] {
        let place = task.number() as usize;
        let start = |place: usize| self.pred_starts.get(place).map(|&start| start as usize);
        let part = start(place).zip(start(place + 1));
        part.and_then(|(from, to)| self.preds.get(from..to)).unwrap_or(&[])
    }

    /// The shortest way from a task through predecessors back to it, the task first and each other one a predecessor of
    /// the one before it. None if there is no such way.
    pub(crate) fn cycle(&self, task: TaskId) -> Option<Vec<TaskId>> {
        // the task that each one was first met from
        let mut met = BTreeMap::new();
        let mut next = VecDeque::from([task]);
        while let Some(from) = next.pop_front() {
            for &pred in self.predecessors(from) {
                if let Entry::Vacant(place) = met.entry(pred) {
                    place.insert(from);
                    next.push_back(pred);
                }
            }
        }
        let mut way = Vec::new();
        let mut at = *met.get(&task)?;
        while at != task {
            way.push(at);
            at = *met.get(&at)?;
        }
        way.push(task);
        way.reverse();
        Some(way)
    }

    /// The graph in the DOT language, an arrow from each predecessor to the task that waits for it. Nothing is judged
    /// here: a number that is no task's is drawn as a task without a weight.
    ///
    /// ```
    /// use yolluvek::Tables;
    ///
    /// let tables = Tables::from_edges([4, 6], [(0, 1)]);
    /// let lines = [
    ///     "digraph tasks {",
    ///     "    0 [label=\"0: 4\"];",
    ///     "    1 [label=\"1: 6\"];",
    ///     "    0 -> 1;",
    ///     "}",
    /// ];
    /// assert_eq!(tables.dot().lines().collect::<Vec<_>>(), lines);
    /// ```
    pub fn dot(&self) -> String {
        let tasks = || (0..).map(TaskId::new).zip(&self.weights);
        let nodes = tasks().map(|(task, weight)| format!("    {task} [label=\"{task}: {weight}\"];\n"));
        let arrows = tasks().flat_map(|(task, _)| {
            let preds = self.predecessors(task).iter();
            preds.map(move |pred| format!("    {pred} -> {task};\n"))
        });
        let lines: String = nodes.chain(arrows).collect();
        format!("digraph tasks {{\n{lines}}}\n")
    }
}

/// The first words of a list, in a list of just that length.
fn first<T: Copy>(list: &[T], count: usize) -> Vec<T> {
    list.iter().copied().take(count).collect()
}
