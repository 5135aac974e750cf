//! The graph check, the successor table and the neighbour lookup in the words of document 01.

pub const MAX_TASKS: usize = 1_024;
pub const MAX_EDGES: usize = 8_192;

/// "Weights 0..65,535."
pub(crate) const MAX_WEIGHT: u32 = 65_535;

/// "Answer: the number and a detail".
#[derive(Clone, Copy, Debug, PartialEq, Eq)]
pub struct Refusal {
    pub number: u32,
    pub detail: u32,
}

pub type Answer = Result<(), Refusal>;

/// "Answer: the number and a detail; all lent memory keeps its words."
pub(crate) fn refused<T>(number: u32, detail: u32) -> Result<T, Refusal> {
    Err(Refusal { number, detail })
}

/// A length or a task number as a word. Nothing that passes "N at most 1,024. E edges, at most 8,192." comes near the cap.
pub(crate) fn word(value: usize) -> u32 {
    u32::try_from(value).unwrap_or(u32::MAX)
}

/// The caller's limits on N and E; above the engine's they count as the engine's.
#[derive(Clone, Copy, Debug)]
pub struct Limits {
    pub tasks: u32,
    pub edges: u32,
}

impl Limits {
    pub const ENGINE: Limits = Limits {
        tasks: MAX_TASKS as u32,
        edges: MAX_EDGES as u32,
    };

    /// "N tasks, numbered 0..N−1, N at most 1,024. E edges, at most 8,192."
    pub(crate) fn hold(self, n: usize, e: usize) -> bool {
        let tasks = (self.tasks as usize).min(MAX_TASKS);
        let edges = (self.edges as usize).min(MAX_EDGES);
        n <= tasks && e <= edges
    }
}

/// Starts and words of a table of neighbours.
#[derive(Clone, Debug, Default)]
pub struct Table {
    pub starts: Vec<u32>,
    pub words: Vec<u32>,
}

impl Table {
    /// The table of the given lists, one after the other.
    ///
    /// "Predecessor starts N+1 and predecessors E: task t's predecessors run from start t up to but not including start
    /// t+1."
    pub fn of(lists: &[Vec<u32>]) -> Table {
        let mut table = Table {
            starts: vec![0],
            words: Vec::new(),
        };
        for list in lists {
            table.words.extend(list);
            table.starts.push(word(table.words.len()));
        }
        table
    }

    /// The neighbours of one task; none unless "start t ≤ start t+1 ≤ E".
    ///
    /// "task t's predecessors run from start t up to but not including start t+1."
    fn part(&self, task: usize) -> Option<&[u32]> {
        let first = *self.starts.get(task)? as usize;
        let end = *self.starts.get(task.checked_add(1)?)? as usize;
        if first <= end && end <= self.words.len() {
            Some(&self.words[first..end])
        } else {
            None
        }
    }

    /// "start t ≤ start t+1 ≤ E fails, or a predecessor ≥ N": a task bad by itself, in either table.
    fn is_bad(&self, task: usize, n: usize) -> bool {
        match self.part(task) {
            None => true,
            Some(part) => part.iter().any(|&number| number as usize >= n),
        }
    }
}

/// Weights and predecessor tables.
#[derive(Clone, Debug, Default)]
pub struct Graph {
    pub weights: Vec<u32>,
    pub preds: Table,
}

impl Graph {
    /// The graph of each task's predecessors, every weight 0.
    ///
    /// "N and E are the lengths of weights and predecessors"
    pub fn of_lists(lists: &[Vec<u32>]) -> Graph {
        Graph {
            weights: vec![0; lists.len()],
            preds: Table::of(lists),
        }
    }

    /// "N and E are the lengths of weights and predecessors": N.
    fn n(&self) -> usize {
        self.weights.len()
    }

    /// "N and E are the lengths of weights and predecessors": E.
    fn e(&self) -> usize {
        self.preds.words.len()
    }

    /// "task t's predecessors run from start t up to but not including start t+1", once 3 has passed.
    pub(crate) fn predecessors(&self, task: usize) -> &[u32] {
        self.preds.part(task).unwrap_or(&[])
    }

    /// "an edge leads from a predecessor to its task" and "each task's successors rising".
    pub(crate) fn successors(&self, task: usize) -> Vec<u32> {
        (0..self.n())
            .filter(|&later| self.predecessors(later).contains(&word(task)))
            .map(word)
            .collect()
    }

    /// 2: "N, E, P, K or (begin) a weight beyond its limit", detail 0.
    pub(crate) fn judge_limits(&self, limits: Limits) -> Answer {
        let heavy = self.weights.iter().any(|&weight| weight > MAX_WEIGHT);
        if heavy || !limits.hold(self.n(), self.e()) {
            return refused(2, 0);
        }
        Ok(())
    }

    /// 1: "a lent length isn't the stated one", detail 0: "Predecessor starts N+1".
    fn judge_lengths(&self) -> Answer {
        if self.preds.starts.len() != self.n() + 1 {
            return refused(1, 0);
        }
        Ok(())
    }

    /// 3: "start t ≤ start t+1 ≤ E fails, or a predecessor ≥ N; start 0 not 0 or start N not E", detail "smallest such
    /// task, N for a wrong first or last start alone".
    fn judge_table(&self) -> Answer {
        if let Some(task) = (0..self.n()).find(|&task| self.preds.is_bad(task, self.n())) {
            return refused(3, word(task));
        }
        let first_right = self.preds.starts.first() == Some(&0);
        let last_right = self.preds.starts.last() == Some(&word(self.e()));
        if !first_right || !last_right {
            return refused(3, word(self.n()));
        }
        Ok(())
    }

    /// 4: "a predecessor twice in one task", detail "smallest such task".
    fn judge_twice(&self) -> Answer {
        match (0..self.n()).find(|&task| holds_twice(self.predecessors(task))) {
            Some(task) => refused(4, word(task)),
            None => Ok(()),
        }
    }

    /// 5: "a cycle, a loop on one task included", detail "smallest task on any cycle".
    fn judge_cycle(&self) -> Answer {
        match (0..self.n()).find(|&task| self.on_cycle(task)) {
            Some(task) => refused(5, word(task)),
            None => Ok(()),
        }
    }

    /// Whether a path of one edge or more leads from the task back to itself. Tasks behind or before a cycle don't count
    /// (docs/DECISIONS.md).
    pub fn on_cycle(&self, task: usize) -> bool {
        self.leads(task, task)
    }

    /// Whether a path of one edge or more leads from one task to the other: all that can be reached from the latter against
    /// the edges is visited, each number once.
    fn leads(&self, from: usize, task: usize) -> bool {
        let mut reached = vec![false; self.n()];
        let mut waiting = vec![task];
        while let Some(next) = waiting.pop() {
            for &pred in self.predecessors(next) {
                let pred = pred as usize;
                if !reached[pred] {
                    reached[pred] = true;
                    waiting.push(pred);
                }
            }
        }
        reached[from]
    }

    /// "strip tasks without remaining successors": the tasks in the order in which they go, each time the one that `choose`
    /// takes of those that can, until none can.
    ///
    /// Document 02, No. 7: "Show that the tasks left are exactly those on a cycle or with a path of edges to one".
    pub fn strip(&self, mut choose: impl FnMut(&[usize]) -> usize) -> Vec<usize> {
        let mut order = Vec::new();
        loop {
            let gone = |task: &usize| order.contains(task);
            let can_go = |task: &usize| self.successors(*task).iter().all(|&later| gone(&(later as usize)));
            let next: Vec<usize> = (0..self.n()).filter(|task| !gone(task) && can_go(task)).collect();
            if next.is_empty() {
                return order;
            }
            order.push(next[choose(&next)]);
        }
    }

    /// "on a cycle or with a path of edges to one"
    pub fn leads_to_cycle(&self, task: usize) -> bool {
        let cycles = |&other: &usize| self.on_cycle(other) && (other == task || self.leads(task, other));
        (0..self.n()).any(|other| cycles(&other))
    }

    /// "Order in begin: 2, 1, 3, 4, 5, 6": what comes after 1, without 6.
    pub(crate) fn judge_edges(&self) -> Answer {
        self.judge_table()?;
        self.judge_twice()?;
        self.judge_cycle()
    }
}

/// "a predecessor twice in one task"
fn holds_twice(list: &[u32]) -> bool {
    let mut sorted = list.to_vec();
    sorted.sort_unstable();
    sorted.windows(2).any(|pair| pair[0] == pair[1])
}

/// The lists that the linking call fills: successor starts, successors, degrees.
#[derive(Clone, Debug, PartialEq, Eq)]
pub struct Lent {
    pub starts: Vec<u32>,
    pub succs: Vec<u32>,
    pub degrees: Vec<u32>,
}

impl Lent {
    /// 1: "a lent length isn't the stated one", detail 0: "Successor starts N+1 and successors E, same shape […]. Degrees N."
    fn judge_lengths(&self, n: usize, e: usize) -> Answer {
        if self.starts.len() != n + 1 || self.succs.len() != e || self.degrees.len() != n {
            return refused(1, 0);
        }
        Ok(())
    }

    /// "Successors are filled, degrees are numbers of predecessors."
    fn fill(&mut self, graph: &Graph) {
        let lists: Vec<Vec<u32>> = (0..graph.n()).map(|task| graph.successors(task)).collect();
        let table = Table::of(&lists);
        self.starts = table.starts;
        self.succs = table.words;
        self.degrees = (0..graph.n())
            .map(|task| word(graph.predecessors(task).len()))
            .collect();
    }
}

/// The graph check: of begin's refusals 2 (N, E and weights), 1 (the length of the starts), 3, 4 and 5, in begin's order.
///
/// "Order in begin: 2, 1, 3, 4, 5, 6."
pub fn check(limits: Limits, graph: &Graph) -> Answer {
    graph.judge_limits(limits)?;
    graph.judge_lengths()?;
    graph.judge_edges()
}

/// The same check, where 1 also judges the lengths of the lists that are lent; if accepted, begin's successors and degrees
/// are filled; if refused, the lent lists keep their words.
///
/// "Order in begin: 2, 1, 3, 4, 5, 6." "Successors are filled, degrees are numbers of predecessors." Refused: "all lent
/// memory keeps its words."
pub fn link(limits: Limits, graph: &Graph, lent: &mut Lent) -> Answer {
    graph.judge_limits(limits)?;
    graph.judge_lengths()?;
    lent.judge_lengths(graph.n(), graph.e())?;
    graph.judge_edges()?;
    lent.fill(graph);
    Ok(())
}

#[derive(Clone, Copy, Debug, PartialEq, Eq)]
pub enum Side {
    Predecessors,
    Successors,
}

/// What a lookup is lent: weights, for N, and both tables; E is the number of predecessors.
#[derive(Clone, Debug, Default)]
pub struct Lookup {
    pub weights: Vec<u32>,
    pub preds: Table,
    pub succs: Table,
}

impl Lookup {
    /// "N and E are the lengths of weights and predecessors, in the lookup too": N.
    fn n(&self) -> usize {
        self.weights.len()
    }

    /// "N and E are the lengths of weights and predecessors, in the lookup too": E.
    fn e(&self) -> usize {
        self.preds.words.len()
    }

    /// "on the side named […] the predecessor or the successor table itself"
    fn table(&self, side: Side) -> &Table {
        match side {
            Side::Predecessors => &self.preds,
            Side::Successors => &self.succs,
        }
    }

    /// 2: "N, E, P, K or (begin) a weight beyond its limit", detail 0; no weight, for this isn't begin (docs/DECISIONS.md).
    fn judge_limits(&self) -> Answer {
        if !Limits::ENGINE.hold(self.n(), self.e()) {
            return refused(2, 0);
        }
        Ok(())
    }

    /// 1: "a lent length isn't the stated one", detail 0; all lengths of both tables are judged (docs/DECISIONS.md).
    fn judge_lengths(&self) -> Answer {
        let starts = self.n() + 1;
        let starts_right = self.preds.starts.len() == starts && self.succs.starts.len() == starts;
        if !starts_right || self.succs.words.len() != self.e() {
            return refused(1, 0);
        }
        Ok(())
    }

    /// 3: "lookup: its range or a number in it is bad, or task ≥ N", detail "lookup: the task".
    ///
    /// Of the tables it judges that task's range and words alone, on the side named (docs/DECISIONS.md).
    fn judge_task(&self, side: Side, task: u32) -> Answer {
        let place = task as usize;
        if place >= self.n() || self.table(side).is_bad(place, self.n()) {
            return refused(3, task);
        }
        Ok(())
    }

    /// The judging call.
    ///
    /// "In lookup: 2, 1, 3." "Its number and detail come from a judging call on the same arguments, which answers 0 and 0
    /// exactly if the lookup is accepted."
    pub fn judge(&self, side: Side, task: u32) -> Answer {
        self.judge_limits()?;
        self.judge_lengths()?;
        self.judge_task(side, task)
    }

    /// The neighbours on the side named; of a refused lookup, none.
    ///
    /// "the neighbours of a task, on the side named, are handed back as that part of the predecessor or the successor table
    /// itself. A refused lookup hands back an empty part."
    pub fn neighbours(&self, side: Side, task: u32) -> &[u32] {
        match self.judge(side, task) {
            Ok(()) => self.table(side).part(task as usize).unwrap_or(&[]),
            Err(_) => &[],
        }
    }
}
