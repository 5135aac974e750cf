//! The predecessor tables: judged in one pass over the edges and one that peels off tasks, and turned into successors.

use super::word;
use crate::model::{refused, Refusal, MAX_TASKS};

/// One number for each task.
type PerTask = [u32; MAX_TASKS];

/// Predecessor starts and predecessors. There is one start more than there are tasks.
pub struct Preds<'a> {
    starts: &'a [u32],
    words: &'a [u32],
}

impl<'a> Preds<'a> {
    pub fn new(starts: &'a [u32], words: &'a [u32]) -> Preds<'a> {
        Preds { starts, words }
    }

    fn n(&self) -> usize {
        self.starts.len() - 1
    }

    /// "task t's predecessors run from start t up to but not including start t+1": none unless "start t ≤ start t+1 ≤ E".
    fn part(&self, task: usize) -> Option<&'a [u32]> {
        self.words
            .get(self.starts[task] as usize..self.starts[task + 1] as usize)
    }

    /// The same once 3 has passed, when each task has its part.
    fn of(&self, task: usize) -> &'a [u32] {
        self.part(task).unwrap_or(&[])
    }

    /// "The roots (degree 0) are taken rising"
    pub fn roots(&self) -> impl Iterator<Item = usize> + 'a {
        let pairs = self.starts.windows(2).enumerate();
        pairs.filter(|(_, pair)| pair[0] == pair[1]).map(|(task, _)| task)
    }

    /// 3, 4 and 5: each task's number of successors.
    pub fn judge(&self) -> Result<PerTask, Refusal> {
        let counts = self.count()?;
        if self.peels_off(counts) {
            Ok(counts)
        } else {
            refused(5, self.smallest_on_cycle())
        }
    }

    /// 3 and 4, each with the "smallest such task": all tasks pass 3 before one is refused with 4.
    fn count(&self) -> Result<PerTask, Refusal> {
        let mut counts = [0; MAX_TASKS];
        // the last task, plus 1, that named this one
        let mut named = [0; MAX_TASKS];
        let per_task = (&mut counts[..self.n()], &mut named[..self.n()]);
        let mut twice = None;
        for task in 0..self.n() {
            let Some(part) = self.part(task) else {
                return refused(3, word(task));
            };
            let by = word(task + 1);
            for &pred in part {
                let pred = pred as usize;
                let (Some(count), Some(named)) = (per_task.0.get_mut(pred), per_task.1.get_mut(pred)) else {
                    return refused(3, word(task));
                };
                if *named == by {
                    twice = twice.or(Some(task));
                }
                *named = by;
                *count += 1;
            }
        }
        if self.starts[0] != 0 || self.starts[self.n()] != word(self.words.len()) {
            return refused(3, word(self.n()));
        }
        match twice {
            Some(task) => refused(4, word(task)),
            None => Ok(counts),
        }
    }

    /// Whether no task is left once tasks without successors are taken away as long as there are any: no cycle then.
    fn peels_off(&self, mut counts: PerTask) -> bool {
        let mut peeled = [0; MAX_TASKS];
        let mut found = 0;
        for (task, &count) in counts.iter().enumerate().take(self.n()) {
            if count == 0 {
                peeled[found] = task;
                found += 1;
            }
        }
        let mut next = 0;
        while next < found {
            for &pred in self.of(peeled[next]) {
                let pred = pred as usize;
                counts[pred] -= 1;
                if counts[pred] == 0 {
                    peeled[found] = pred;
                    found += 1;
                }
            }
            next += 1;
        }
        found == self.n()
    }

    /// The "smallest task on any cycle": one that has a predecessor in its own strong component.
    #[cold]
    fn smallest_on_cycle(&self) -> u32 {
        let components = Search::new(self).components();
        let on_cycle = |&task: &usize| {
            let inside = |&pred: &u32| components[pred as usize] == components[task];
            self.of(task).iter().any(inside)
        };
        (0..self.n()).find(on_cycle).map_or(0, word)
    }

    /// "Successors are filled, degrees are numbers of predecessors." The counts are each task's number of successors.
    pub fn fill(&self, counts: PerTask, succ_starts: &mut [u32], succs: &mut [u32], degrees: &mut [u32]) {
        let mut places = counts;
        let mut start = 0;
        for (place, succ_start) in places.iter_mut().zip(&mut *succ_starts) {
            *succ_start = start;
            (start, *place) = (start + *place, start);
        }
        succ_starts[self.n()] = start;
        for (task, degree) in degrees.iter_mut().enumerate() {
            let part = self.of(task);
            *degree = word(part.len());
            for &pred in part {
                let place = &mut places[pred as usize];
                succs[*place as usize] = word(task);
                *place += 1;
            }
        }
    }
}

/// Tarjan's search for strong components, against the edges.
struct Search<'a> {
    preds: &'a Preds<'a>,
    /// The tasks visited so far, in numbers from 1; 0 for a task not visited.
    order: Vec<usize>,
    visited: usize,
    /// The earliest open task known to be reached.
    low: Vec<usize>,
    /// Which of its predecessors comes next.
    next: Vec<usize>,
    /// The tasks from the first one to the one being visited.
    path: Vec<usize>,
    /// The visited tasks whose component isn't known yet.
    open: Vec<usize>,
    /// Each component is named after one of its tasks.
    component: Vec<Option<usize>>,
}

impl<'a> Search<'a> {
    fn new(preds: &'a Preds<'a>) -> Search<'a> {
        let n = preds.n();
        Search {
            preds,
            order: vec![0; n],
            visited: 0,
            low: vec![0; n],
            next: vec![0; n],
            path: Vec::new(),
            open: Vec::new(),
            component: vec![None; n],
        }
    }

    fn components(mut self) -> Vec<Option<usize>> {
        for first in 0..self.preds.n() {
            if self.order[first] == 0 {
                self.visit(first);
            }
            while let Some(&task) = self.path.last() {
                self.advance(task);
            }
        }
        self.component
    }

    fn visit(&mut self, task: usize) {
        self.visited += 1;
        self.order[task] = self.visited;
        self.low[task] = self.visited;
        self.path.push(task);
        self.open.push(task);
    }

    /// Follows the task's next edge, or leaves the task.
    fn advance(&mut self, task: usize) {
        let Some(&pred) = self.preds.of(task).get(self.next[task]) else {
            return self.leave(task);
        };
        let pred = pred as usize;
        self.next[task] += 1;
        if self.order[pred] == 0 {
            self.visit(pred);
        } else if self.component[pred].is_none() {
            self.low[task] = self.low[task].min(self.order[pred]);
        }
    }

    fn leave(&mut self, task: usize) {
        self.path.pop();
        if let Some(&before) = self.path.last() {
            self.low[before] = self.low[before].min(self.low[task]);
        }
        if self.low[task] < self.order[task] {
            return;
        }
        while let Some(member) = self.open.pop() {
            self.component[member] = Some(task);
            if member == task {
                break;
            }
        }
    }
}
