//! What a job shows of itself.

use crate::callers::{Caller, ItemOf, Sealed};
use crate::ids::{TaskId, WorkerId};
use crate::job::{JobOf, Side};
use crate::kinds::{Kind, Plain, RunWords};
use crate::memory::{Ends, Entry, Row};
use crate::step::{NextRelease, Phase};
use crate::tables::Tables;

/// Views, which change nothing.
impl<C: Caller> JobOf<C> {
    /// The number of tasks, N.
    pub fn tasks(&self) -> usize {
        self.memory.tasks()
    }

    /// The number of edges, E.
    pub fn edges(&self) -> usize {
        self.memory.edges()
    }

    /// The number of workers that the job was made for, P.
    pub fn workers(&self) -> usize {
        self.workers
    }

    /// The number of slots of each ring, K; a ring holds as many tasks.
    pub fn slots(&self) -> usize {
        self.slots
    }

    /// The numbers of the workers, 0 to P − 1. Not a borrow of the job, so its calls can be made on the way.
    ///
    /// ```
    /// use yolluvek::{Job, Refusal};
    ///
    /// let mut job = Job::from_text(b"0\n0 0 0\n1 0 1 0\n", 2, 2)?;
    /// job.begin()?;
    /// for worker in job.worker_ids() {
    ///     assert_eq!(job.fetch(worker).is_ok(), worker.number() == 0);
    /// }
    /// # Ok::<(), Refusal>(())
    /// ```
    pub fn worker_ids(&self) -> impl DoubleEndedIterator<Item = WorkerId> + ExactSizeIterator + Clone {
        numbers_below(self.workers).map(WorkerId::new)
    }

    /// The numbers of the tasks, 0 to N − 1. Not a borrow of the job, so its calls can be made on the way.
    ///
    /// ```
    /// use yolluvek::{Job, Refusal};
    ///
    /// let job = Job::from_text(b"2\n0 0 0\n1 5 1 0\n2 3 1 0\n3 0 2 1 2\n", 2, 4)?;
    /// let weight: u32 = job.task_ids().filter_map(|task| job.weight(task)).sum();
    /// assert_eq!(weight, 8);
    /// # Ok::<(), Refusal>(())
    /// ```
    pub fn task_ids(&self) -> impl DoubleEndedIterator<Item = TaskId> + ExactSizeIterator + Clone {
        numbers_below(self.tasks()).map(TaskId::new)
    }

    /// The job's tables.
    pub fn tables(&self) -> &Tables {
        &self.memory.tables
    }

    /// The weight of a task.
    pub fn weight(&self, task: TaskId) -> Option<u32> {
        self.memory.tables.weights.get(task.number() as usize).copied()
    }

    /// Whether there is a run: whether a begin was accepted.
    pub fn is_begun(&self) -> bool {
        self.begun
    }

    /// How many steps of this run were accepted; [`all_steps`](JobOf::all_steps) once it is finished.
    pub fn accepted(&self) -> usize {
        self.memory.run.accepted()
    }

    /// How many entries the record of this run has.
    pub fn recorded(&self) -> usize {
        self.memory.run.entries()
    }

    /// How many entries the record has once the run is finished: N; of a weak job that is begun, E + R with R roots.
    pub fn all_entries(&self) -> usize {
        C::Kind::all_entries(&self.memory)
    }

    /// How many steps are accepted once the run is finished: 3N + E; of a weak job that is begun, 4E + 3R with R roots.
    pub fn all_steps(&self) -> usize {
        C::Kind::all_steps(&self.memory)
    }

    /// Whether every task of this run is completed. Nothing is left to fetch or to release then.
    pub fn is_finished(&self) -> bool {
        self.begun && self.recorded() == self.all_entries()
    }

    /// The load of a worker: the sum of its counters, which is the weight of the tasks that wait in its rings and of the
    /// one in its hand; in a weak job, of the tasks that are fixed to it and aren't complete. None if there is no such worker or no accepted begin.
    ///
    /// ```
    /// use yolluvek::{Job, Refusal, Tables, WorkerId};
    ///
    /// let tables = Tables {
    ///     weights: vec![4, 6],
    ///     pred_starts: vec![0; 3],
    ///     preds: Vec::new(),
    /// };
    /// let mut job = Job::from_tables(tables, 2, 4);
    /// assert_eq!(job.load(WorkerId::new(1)), None);
    /// job.begin()?;
    /// assert_eq!(job.load(WorkerId::new(1)), Some(6));
    /// // a worker with a long task isn't empty: the weight leaves when the task is completed
    /// job.fetch(WorkerId::new(1))?;
    /// job.start(WorkerId::new(1))?;
    /// assert_eq!(job.load(WorkerId::new(1)), Some(6));
    /// job.complete(WorkerId::new(1))?;
    /// assert_eq!(job.load(WorkerId::new(1)), Some(0));
    /// # Ok::<(), Refusal>(())
    /// ```
    pub fn load(&self, worker: WorkerId) -> Option<i64> {
        let place = self.place(worker)?;
        let first = place.checked_mul(self.workers)?;
        let end = first.checked_add(self.workers)?;
        let counters = self.memory.counters.get(first..end)?;
        Some(counters.iter().map(|&counter| i64::from(counter)).sum())
    }

    /// The phase of a worker. None if there is no such worker or no accepted begin.
    ///
    /// ```
    /// use yolluvek::{Job, Phase, Refusal, WorkerId};
    ///
    /// let mut job = Job::from_text(b"0\n0 0 0\n1 0 1 0\n", 1, 2)?;
    /// job.begin()?;
    /// assert_eq!(job.phase(WorkerId::new(0)), Some(Phase::Idle));
    /// assert_eq!(job.phase(WorkerId::new(1)), None);
    /// # Ok::<(), Refusal>(())
    /// ```
    pub fn phase(&self, worker: WorkerId) -> Option<Phase> {
        Phase::of(self.row(worker)?.phase)
    }

    /// The task that a worker has fetched or is running. None if its hand is empty, or there is no such worker or no
    /// accepted begin.
    ///
    /// ```
    /// use yolluvek::{Job, Refusal, WorkerId};
    ///
    /// let mut job = Job::from_text(b"0\n0 0 0\n1 0 1 0\n", 1, 2)?;
    /// job.begin()?;
    /// let worker = WorkerId::new(0);
    /// assert_eq!(job.held(worker), None);
    /// let task = job.fetch(worker)?;
    /// assert_eq!(job.held(worker), Some(task));
    /// # Ok::<(), Refusal>(())
    /// ```
    pub fn held(&self, worker: WorkerId) -> Option<ItemOf<C>> {
        let held = self.row(worker)?.held;
        let there = (C::Kind::task(held).number() as usize) < self.tasks();
        there.then(|| C::Kind::item(held))
    }

    /// The tasks that wait in the ring that one worker owns and another, or the same one, fills, oldest first. None if
    /// there is no such worker or no accepted begin. The ring is full with [`slots`](JobOf::slots) tasks.
    ///
    /// ```
    /// use yolluvek::{Job, Refusal, Tables, TaskId, WorkerId};
    ///
    /// // three tasks without predecessors, dealt to workers 0, 1 and 0
    /// let mut job = Job::from_tables(Tables::from_edges([4, 6, 2], [(0, 0); 0]), 2, 4);
    /// job.begin()?;
    /// let [zero, one] = [0, 1].map(WorkerId::new);
    /// let waiting = |owner, filler| job.waiting(owner, filler).map(Vec::from_iter);
    /// assert_eq!(waiting(zero, zero), Some(vec![TaskId::new(0), TaskId::new(2)]));
    /// assert_eq!(waiting(one, one), Some(vec![TaskId::new(1)]));
    /// assert_eq!(waiting(one, zero), Some(vec![]));
    /// assert_eq!(waiting(one, WorkerId::new(2)), None);
    /// # Ok::<(), Refusal>(())
    /// ```
    pub fn waiting(&self, owner: WorkerId, filler: WorkerId) -> Option<impl Iterator<Item = ItemOf<C>> + '_> {
        let ring = self.ring(owner, filler)?;
        let slots = self.memory.rings.chunks_exact(self.slots).nth(ring)?;
        let &Ends { head, count, .. } = self.memory.ends.get(ring)?;
        let waiting = slots.iter().cycle().skip(head as usize).take(count as usize);
        Some(waiting.map(|&slot| C::Kind::item(slot)))
    }

    /// Head, tail and count of the ring that one worker owns and another, or the same one, fills. None if there is no such
    /// worker or no accepted begin.
    ///
    /// ```
    /// use yolluvek::{Ends, Job, Refusal, Tables, WorkerId};
    ///
    /// // four tasks without predecessors, two for each worker, whose rings are full then
    /// let mut job = Job::from_tables(Tables::from_edges([4, 6, 2, 1], [(0, 0); 0]), 2, 2);
    /// job.begin()?;
    /// let [zero, one] = [0, 1].map(WorkerId::new);
    /// let full = Ends { head: 0, tail: 0, count: 2 };
    /// assert_eq!(job.ends(one, one), Some(full));
    /// job.fetch(one)?;
    /// assert_eq!(job.ends(one, one), Some(Ends { head: 1, tail: 0, count: 1 }));
    /// assert_eq!(job.ends(zero, zero), Some(full));
    /// assert_eq!(job.ends(one, zero), Some(Ends { head: 0, tail: 0, count: 0 }));
    /// # Ok::<(), Refusal>(())
    /// ```
    pub fn ends(&self, owner: WorkerId, filler: WorkerId) -> Option<Ends> {
        self.memory.ends.get(self.ring(owner, filler)?).copied()
    }

    /// The counter of the ring that one worker owns and another, or the same one, fills. It may be below 0: a completed
    /// task's weight leaves the counter that its worker both owns and fills. The sum is right: see [`load`](JobOf::load).
    /// None if there is no such worker or no accepted begin.
    ///
    /// ```
    /// use yolluvek::{Job, Refusal, WorkerId};
    ///
    /// let mut job = Job::from_text(b"1\n0 0 0\n1 7 1 0\n2 0 1 1\n", 2, 4)?;
    /// job.begin()?;
    /// let [zero, one] = [0, 1].map(WorkerId::new);
    /// job.fetch(zero)?;
    /// job.start(zero)?;
    /// job.complete(zero)?;
    /// job.release(zero)?;
    /// assert_eq!(job.counter(zero, zero), Some(7));
    /// assert_eq!(job.counter(zero, one), Some(0));
    /// # Ok::<(), Refusal>(())
    /// ```
    pub fn counter(&self, owner: WorkerId, filler: WorkerId) -> Option<i32> {
        self.memory.counters.get(self.ring(owner, filler)?).copied()
    }

    /// How many predecessors a task still waits for; in a weak job, how many of its copies aren't completed. None if there is no such task or no accepted begin.
    ///
    /// ```
    /// use yolluvek::{Job, Refusal, TaskId};
    ///
    /// let mut job = Job::from_text(b"2\n0 0 0\n1 5 1 0\n2 3 1 0\n3 0 2 1 2\n", 2, 4)?;
    /// assert_eq!(job.degree(TaskId::new(3)), None);
    /// job.begin()?;
    /// assert_eq!(job.degree(TaskId::new(3)), Some(2));
    /// # Ok::<(), Refusal>(())
    /// ```
    pub fn degree(&self, task: TaskId) -> Option<u32> {
        let degree = self.memory.degrees.get(task.number() as usize).copied();
        degree.filter(|_| self.begun)
    }

    /// The filler at which the worker's next Fetch starts to look. None if there is no such worker or no accepted begin.
    ///
    /// ```
    /// use yolluvek::{Job, Refusal, WorkerId};
    ///
    /// let mut job = Job::from_text(b"0\n0 0 0\n1 0 1 0\n", 2, 2)?;
    /// job.begin()?;
    /// let [zero, one] = [0, 1].map(WorkerId::new);
    /// assert_eq!(job.pointer(zero), Some(zero));
    /// // it takes from the ring filled by 0, so the pointer names the filler after that
    /// job.fetch(zero)?;
    /// assert_eq!(job.pointer(zero), Some(one));
    /// # Ok::<(), Refusal>(())
    /// ```
    pub fn pointer(&self, worker: WorkerId) -> Option<WorkerId> {
        self.row(worker).map(|row| row.pointer)
    }

    /// The tasks that the worker has completed and whose successors aren't all released yet, oldest first. None if there
    /// is no such worker or no accepted begin.
    ///
    /// ```
    /// use yolluvek::{Job, Refusal, TaskId, WorkerId};
    ///
    /// let mut job = Job::from_text(b"0\n0 0 0\n1 0 1 0\n", 1, 2)?;
    /// job.begin()?;
    /// let worker = WorkerId::new(0);
    /// let task = job.fetch(worker)?;
    /// job.start(worker)?;
    /// job.complete(worker)?;
    /// assert_eq!(job.buffer(worker), Some(&[task][..]));
    /// job.release(worker)?;
    /// assert_eq!(job.buffer(worker), Some(&[][..]));
    /// # Ok::<(), Refusal>(())
    /// ```
    pub fn buffer(&self, worker: WorkerId) -> Option<&[TaskId]> {
        let row = self.row(worker)?;
        let first = self.place(worker)? * self.tasks();
        let (read, write) = (row.read as usize, row.write as usize);
        self.memory.buffers.get(first + read..first + write)
    }

    /// What the worker's next Release is about. None if its buffer is empty, there is no such worker or no accepted
    /// begin.
    ///
    /// ```
    /// use yolluvek::{Job, NextRelease, Refusal, TaskId, WorkerId};
    ///
    /// let mut job = Job::from_text(b"2\n0 0 0\n1 5 1 0\n2 3 1 0\n3 0 2 1 2\n", 2, 4)?;
    /// job.begin()?;
    /// let worker = WorkerId::new(0);
    /// assert_eq!(job.next_release(worker), None);
    /// let task = job.fetch(worker)?;
    /// job.start(worker)?;
    /// job.complete(worker)?;
    /// let next = NextRelease { task, successor: TaskId::new(1), degree: 1, weight: 5 };
    /// assert_eq!(job.next_release(worker), Some(next));
    /// # Ok::<(), Refusal>(())
    /// ```
    pub fn next_release(&self, worker: WorkerId) -> Option<NextRelease> {
        let &task = self.buffer(worker)?.first()?;
        let successors = self.neighbours(Side::Successors, task).ok()?;
        let &successor = successors.get(self.row(worker)?.cursor as usize)?;
        Some(NextRelease {
            task,
            successor,
            degree: self.degree(successor)?,
            weight: self.weight(successor)?,
        })
    }

    /// How many words the job lends to the engine, in all its lists.
    pub fn words(&self) -> usize {
        self.memory.lists().iter().map(Vec::len).sum()
    }

    /// How many of the lent words are others than in another job; a word that only one of them has counts too. After a
    /// refused call, 0 differ from a copy made before it.
    ///
    /// ```
    /// use yolluvek::{Job, Refusal, WorkerId};
    ///
    /// let mut job = Job::from_text(b"0\n0 0 0\n1 0 1 0\n", 1, 2)?;
    /// job.begin()?;
    /// job.fetch(WorkerId::new(0))?;
    /// let before = job.clone();
    /// assert!(job.fetch(WorkerId::new(0)).is_err());
    /// assert_eq!(job.words_differing(&before), 0);
    /// // Start writes the worker's phase and the number of accepted steps
    /// job.start(WorkerId::new(0))?;
    /// assert_eq!(job.words_differing(&before), 2);
    /// # Ok::<(), Refusal>(())
    /// ```
    pub fn words_differing(&self, other: &JobOf<C>) -> usize {
        let (lists, others) = (self.memory.lists(), other.memory.lists());
        let pairs = lists.iter().zip(&others);
        pairs.map(|(list, other)| differing(list, other)).sum()
    }

    /// The place of a worker's row, in a job that is begun.
    fn place(&self, worker: WorkerId) -> Option<usize> {
        let place = worker.number() as usize;
        (self.begun && place < self.workers).then_some(place)
    }

    /// The place of a ring, in a job that is begun.
    fn ring(&self, owner: WorkerId, filler: WorkerId) -> Option<usize> {
        Some(self.place(owner)? * self.workers + self.place(filler)?)
    }

    fn row(&self, worker: WorkerId) -> Option<&Row<<C::Kind as Kind>::Slot>> {
        self.memory.rows.get(self.place(worker)?)
    }
}

/// The record of tasks, which a [`WeakJob`](crate::WeakJob) has of copies.
impl<C: Caller + Sealed<Kind = Plain>> JobOf<C> {
    /// The record of this run: each completed task with its worker, in the order of their Completes.
    ///
    /// ```
    /// use yolluvek::{Job, Refusal, WorkerId};
    ///
    /// let mut job = Job::from_text(b"0\n0 0 0\n1 0 1 0\n", 1, 2)?;
    /// job.begin()?;
    /// let worker = WorkerId::new(0);
    /// for _ in 0..job.tasks() {
    ///     job.fetch(worker)?;
    ///     job.start(worker)?;
    ///     job.complete(worker)?;
    ///     while job.release(worker).is_ok() {}
    /// }
    /// assert!(job.is_finished());
    /// let tasks: Vec<u32> = job.record().iter().map(|entry| entry.task.number()).collect();
    /// assert_eq!(tasks, [0, 1]);
    /// # Ok::<(), Refusal>(())
    /// ```
    pub fn record(&self) -> &[Entry] {
        self.memory.executed.get(..self.recorded()).unwrap_or(&[])
    }
}

/// 0 to the count − 1; where a count passes them all, all 32-bit numbers.
fn numbers_below(count: usize) -> std::ops::Range<u32> {
    0..u32::try_from(count).unwrap_or(u32::MAX)
}

fn differing(list: &[u32], other: &[u32]) -> usize {
    let changed = list.iter().zip(other).filter(|(word, other)| word != other);
    changed.count() + list.len().abs_diff(other.len())
}
