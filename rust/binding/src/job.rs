//! A job: a task graph and the memory of its run.

use crate::callers::{Caller, Engine, ItemOf, Planner, ReleasedOf, WeakEngine};
use crate::ffi;
use crate::ids::{TaskId, WorkerId};
use crate::kinds::Kind;
use crate::memory::Memory;
use crate::refusal::{Asked, Refusal};
use crate::reply::{self, Reply, Said};
use crate::step::{Call, Outcome, Step};
use crate::tables::Tables;
use std::hash::{Hash, Hasher};
use std::marker::PhantomData;

/// Which neighbours of a task.
#[derive(Clone, Copy, Debug, PartialEq, Eq, Hash)]
pub enum Side {
    /// The tasks that it waits for.
    Predecessors,
    /// The tasks that wait for it.
    Successors,
}

/// A task graph with the memory of its run, for a number of workers and of slots in each ring.
///
/// 1. Make a job: [`from_text`](Job::from_text) or [`from_tables`](Job::from_tables).
/// 2. Begin a run: [`begin`](Job::begin). Called again, it starts another run from the beginning.
/// 3. Drive it until it [`is_finished`](Job::is_finished), each call being one step of one worker:
///    [`fetch`](Job::fetch) gives it a task, [`start`](Job::start) says that the task runs, [`complete`](Job::complete)
///    that it is done, and each [`release`](Job::release) lets one successor of a completed task wait for one task less.
/// 4. Read the [`record`](Job::record): which worker completed which task, in order; and [`windows`](Job::windows), the
///    weight that each worker finished in every run of neighbouring entries.
///
/// On the way a job shows all that the rule speaks of: what [is waiting](Job::waiting) in which ring, the
/// [load](Job::load) of a worker, its [phase](Job::phase), its [hand](Job::held), its [buffer](Job::buffer), what its
/// [next Release](Job::next_release) is about. A [log](Job::log) keeps the calls of a run, to make them again.
///
/// ```
/// use yolluvek::{Job, Refusal, WorkerId};
///
/// // task 1 after task 0; one worker, two slots in a ring
/// let mut job = Job::from_text(b"0\n0 0 0\n1 0 1 0\n", 1, 2)?;
/// job.begin()?;
/// let worker = WorkerId::new(0);
/// while !job.is_finished() {
///     let task = job.fetch(worker)?;
///     job.start(worker)?;
///     // here the worker runs the task
///     job.complete(worker)?;
///     assert_eq!(job.record().last().map(|entry| entry.task), Some(task));
///     while job.release(worker).is_ok() {}
/// }
/// assert_eq!(job.record().len(), job.tasks());
/// # Ok::<(), Refusal>(())
/// ```
///
/// The [crate's page](crate) has the loop for several workers. A refused call has changed nothing, and says why:
///
/// | [`Refusal`] | of | means |
/// |---|---|---|
/// | [`BadLayout`](Refusal::BadLayout), [`BadFirstLine`](Refusal::BadFirstLine), [`TextEnds`](Refusal::TextEnds) | a text | it isn't laid out as the Standard Task Graph Set, from this line on |
/// | [`BeyondLimit`](Refusal::BeyondLimit) | a text, begin | a size, a weight, the number of workers or of slots, or the text is beyond its limit: see [`limits`](crate::limits) |
/// | [`WrongLength`](Refusal::WrongLength), [`BadPart`](Refusal::BadPart), [`BadEnds`](Refusal::BadEnds), [`PredecessorTwice`](Refusal::PredecessorTwice), [`Cycle`](Refusal::Cycle) | begin | the tables are no task graph |
/// | [`TooManyRoots`](Refusal::TooManyRoots) | begin | more workers or slots are needed |
/// | [`NoSuchWorker`](Refusal::NoSuchWorker) | a step | workers have the numbers 0 to [`workers`](Job::workers) − 1 |
/// | [`WrongPhase`](Refusal::WrongPhase) | a step | another step suits this worker now: see [`Phase`](crate::Phase) |
/// | [`NothingToFetch`](Refusal::NothingToFetch), [`NothingToRelease`](Refusal::NothingToRelease) | Fetch, Release | no fault: another step, or another worker, is next |
/// | [`NoRoom`](Refusal::NoRoom) | Release | let a worker fetch, then release again |
/// | [`NotBegun`](Refusal::NotBegun), [`NoSuccessorsYet`](Refusal::NoSuccessorsYet) | a step, a lookup | there was no accepted begin |
/// | [`NoSuchTask`](Refusal::NoSuchTask), [`BadPart`](Refusal::BadPart) | a lookup | there is no such task, or its part of the table is bad |
/// | [`NoDummies`](Refusal::NoDummies) | [`to_text`](Tables::to_text) of its [tables](Job::tables) | a text's first and last task are dummies, which this job lacks |
/// | [`BadWindow`](Refusal::BadWindow) | [`windows`](Job::windows) | a load window has from 1 to as many entries as are recorded |
/// | [`DamagedWord`](Refusal::DamagedWord), [`RecordFull`](Refusal::RecordFull), [`UnexpectedReply`](Refusal::UnexpectedReply), [`Unknown`](Refusal::Unknown) | no call | a job doesn't answer them |
///
/// Where begin is refused with `BeyondLimit` or `WrongLength`, a step or a lookup may be too.
///
/// The graph, the workers and the slots of a job stay as they are; for others, make another job, of
/// [`into_tables`](Job::into_tables) perhaps. Two jobs are equal if all their memory is, whatever log they keep, so a
/// copy made before a refused call equals the job after it.
pub type Job = JobOf<Engine>;

/// A job with smaller limits, for a planning window that has less memory: at most
/// [128](crate::limits::PREVIEW_MAX_TASKS) tasks, [512](crate::limits::PREVIEW_MAX_EDGES) edges,
/// [4](crate::limits::PREVIEW_MAX_WORKERS) workers and [8](crate::limits::PREVIEW_MAX_SLOTS) slots, and no memory for
/// more than these.
///
/// It has all calls and views that a [`Job`] has ([`JobOf`] lists them) but the neighbour lookup and the load windows.
/// Within its limits every call is the job's own: the same answer, and the same words written. Beyond them begin and every step are refused with
/// 2 before anything else, and the [`Limit`](crate::limits::Limit) names the preview's; [`BeyondPreview`](Refusal::BeyondPreview)
/// says that the engine's limits are kept. Weights to 65,535, workers from 1
/// and slots from 2 stay, as does the stack that a call uses, which is sized by the engine's limits.
///
/// ```
/// use yolluvek::{Job, Preview, Refusal, Step};
///
/// // tasks 1 and 2 wait for task 0, and task 3 for both
/// let text = b"2\n0 0 0\n1 5 1 0\n2 3 1 0\n3 0 2 1 2\n";
/// let mut preview = Preview::from_text(text, 2, 4)?;
/// preview.begin()?;
/// while !preview.is_finished() {
///     for worker in preview.worker_ids() {
///         // a turn is the first of these that is accepted, or nothing
///         let turn = [Step::Release, Step::Fetch, Step::Start, Step::Complete];
///         turn.into_iter().find(|&step| preview.step(step, worker).is_ok());
///     }
/// }
/// assert_eq!(preview.accepted(), 16);
/// let record: Vec<(u32, u32)> = preview
///     .record()
///     .iter()
///     .map(|entry| (entry.task.number(), entry.worker.number()))
///     .collect();
/// assert_eq!(record, [(0, 0), (2, 1), (1, 0), (3, 0)]);
///
/// // five workers are too many for a preview, and not for a job
/// let mut preview = Preview::from_tables(preview.into_tables(), 5, 4);
/// let refusal = preview.begin().unwrap_err();
/// assert_eq!((refusal.number(), refusal.detail()), (2, 0));
/// assert_eq!(
///     refusal.to_string(),
///     "the number of workers, 5, is beyond the preview's limit: 1 to 4"
/// );
/// let mut job = Job::from_tables(preview.into_tables(), 5, 4);
/// job.begin()?;
/// # Ok::<(), Refusal>(())
/// ```
pub type Preview = JobOf<Planner>;

/// A weak job, for seams that blend neighbour by neighbour: a task is worked on once with each of its predecessors, as soon
/// as that one is complete. What waits, is fetched, held and recorded is a [copy](crate::TaskCopy) of a task.
///
/// It is made and driven as a [`Job`] is, within the same limits, and has all its calls and views ([`JobOf`] lists them) but
/// the load windows. Each accepted Release makes one copy. The first copy of a task picks its worker as a job's task does, and
/// [fixes](WeakJob::fixed) the task to it, or is refused with [`NoRoomForFirst`](Refusal::NoRoomForFirst); later copies go
/// only to that worker, and are refused with [`RingFull`](Refusal::RingFull) where its ring is full. The weight counts in that worker's load from the first copy's
/// Release to the last copy's Complete, which completes the task.
///
/// ```
/// use yolluvek::{Refusal, Step, WeakJob, WorkerId};
///
/// // tasks 1 and 2 wait for task 0, and task 3 is worked on with 1 and with 2
/// let text = b"2\n0 0 0\n1 5 1 0\n2 3 1 0\n3 0 2 1 2\n";
/// let mut job = WeakJob::from_text(text, 2, 4)?;
/// job.begin()?;
/// let mut workers = job.worker_ids().cycle();
/// while !job.is_finished() {
///     let worker = workers.next().expect("they take turns for ever");
///     // a turn is the first of these that is accepted, or nothing
///     let turn = [Step::Release, Step::Fetch, Step::Start, Step::Complete];
///     turn.into_iter().find(|&step| job.step(step, worker).is_ok());
/// }
/// // with E edges and R roots, 4E + 3R steps and E + R copies
/// assert_eq!(job.accepted(), 19);
/// let record: Vec<(String, u32)> = job
///     .record()
///     .map(|entry| (entry.copy.to_string(), entry.worker.number()))
///     .collect();
/// let copies = [("0", 0), ("2·0", 1), ("1·0", 0), ("3·2", 0), ("3·1", 0)];
/// assert_eq!(record, copies.map(|(copy, worker)| (copy.to_owned(), worker)));
/// # Ok::<(), Refusal>(())
/// ```
pub type WeakJob = JobOf<WeakEngine>;

/// What a [`Job`], a [`Preview`] and a [`WeakJob`] share: a task graph with the memory of its run, and the calls of one caller
/// on it. Where it says task, a weak job has a copy.
#[derive(Clone, Debug)]
pub struct JobOf<C: Caller> {
    pub(crate) memory: Memory<C::Kind>,
    pub(crate) workers: usize,
    pub(crate) slots: usize,
    pub(crate) begun: bool,
    /// The calls of this run, where they are kept.
    log: Option<Vec<Call>>,
    caller: PhantomData<C>,
}

impl<C: Caller> PartialEq for JobOf<C> {
    fn eq(&self, other: &JobOf<C>) -> bool {
        self.state() == other.state()
    }
}

impl<C: Caller> Eq for JobOf<C> {}

impl<C: Caller> Hash for JobOf<C> {
    fn hash<H: Hasher>(&self, to: &mut H) {
        self.state().hash(to);
    }
}

impl<C: Caller> JobOf<C> {
    /// Reads a job from a text of the Standard Task Graph Set, for this number of workers and of slots in each ring.
    ///
    /// # Errors
    ///
    /// Refused as by [`Tables::from_text`]; the two numbers are judged by [`begin`](Job::begin).
    ///
    /// ```
    /// use yolluvek::{Job, Refusal};
    ///
    /// let job = Job::from_text(b"2\n0 0 0\n1 5 1 0\n2 3 1 0\n3 0 2 1 2\n", 2, 4)?;
    /// assert_eq!((job.tasks(), job.edges()), (4, 4));
    ///
    /// let refusal = Job::from_text(b"2\n0 0 0\n1 5 2 0\n", 2, 4).unwrap_err();
    /// assert_eq!(refusal.to_string(), "the text breaks the layout in line 3");
    /// let refusal = Job::from_text(b"2\n0 0 0\n", 2, 4).unwrap_err();
    /// assert_eq!(
    ///     refusal.to_string(),
    ///     "the text ends too early: n is 2, so 4 task lines have to follow, and there is 1 task line"
    /// );
    /// # Ok::<(), Refusal>(())
    /// ```
    pub fn from_text(text: &[u8], workers: usize, slots: usize) -> Result<JobOf<C>, Refusal> {
        let tables = Tables::from_text(text)?;
        Ok(JobOf::from_tables(tables, workers, slots))
    }

    /// Makes a job of tables, for this number of workers and of slots in each ring. Nothing is judged here; all of it is by
    /// [`begin`](Job::begin).
    ///
    /// ```
    /// use yolluvek::{Job, Refusal, TaskId, Tables};
    ///
    /// // task 1 after task 0
    /// let tables = Tables {
    ///     weights: vec![4, 6],
    ///     pred_starts: vec![0, 0, 1],
    ///     preds: vec![TaskId::new(0)],
    /// };
    /// let mut job = Job::from_tables(tables, usize::MAX, 4);
    /// let refusal = job.begin().unwrap_err();
    /// assert_eq!((refusal.number(), refusal.detail()), (2, 0));
    ///
    /// let mut job = Job::from_tables(job.into_tables(), 3, 4);
    /// assert_eq!(job.begin(), Ok(()));
    /// ```
    pub fn from_tables(tables: Tables, workers: usize, slots: usize) -> JobOf<C> {
        JobOf {
            memory: Memory::sized(tables, workers, slots, C::WHOSE),
            workers,
            slots,
            begun: false,
            log: None,
            caller: PhantomData,
        }
    }

    /// All that tells a job from another.
    fn state(&self) -> (&Memory<C::Kind>, usize, usize, bool) {
        (&self.memory, self.workers, self.slots, self.begun)
    }

    /// The job's tables, for a job with other numbers.
    pub fn into_tables(self) -> Tables {
        self.memory.tables
    }

    /// Begins a run: the tasks without predecessors are dealt to the workers, in the order of their numbers. In the
    /// middle of a run or after it, that starts another one.
    ///
    /// # Errors
    ///
    /// Refused with 2, 1, 3, 4, 5 or 6, the first of them in this order, for limits, the number of starts, bad starts
    /// or predecessors, a predecessor that stands twice, a cycle, too many roots for the rings. The answer depends on
    /// the tables and the two numbers alone, so begun once a job can always be begun again.
    ///
    /// ```
    /// use yolluvek::{Job, Refusal, Tables};
    ///
    /// // three tasks without predecessors; one worker whose ring holds two tasks
    /// let tables = Tables {
    ///     weights: vec![1; 3],
    ///     pred_starts: vec![0; 4],
    ///     preds: Vec::new(),
    /// };
    /// let mut job = Job::from_tables(tables, 1, 2);
    /// assert_eq!(job.begin(), Err(Refusal::TooManyRoots { roots: 3, room: 2 }));
    ///
    /// let mut job = Job::from_tables(job.into_tables(), 3, 2);
    /// assert_eq!(job.begin(), Ok(()));
    /// ```
    pub fn begin(&mut self) -> Result<(), Refusal> {
        let reply = (C::CALLS.begin)(&mut self.memory, self.workers, self.slots);
        let asked = Asked::Begin {
            whose: C::WHOSE,
            tables: &self.memory.tables,
            workers: self.workers,
            slots: self.slots,
        };
        asked.answered(reply.number, reply.detail)?;
        self.begun = true;
        if let Some(log) = &mut self.log {
            log.clear();
            log.push(Call::Begin);
        }
        Ok(())
    }

    /// A step by its name, for callers that choose it at run time.
    ///
    /// # Errors
    ///
    /// Refused as the call of that name is.
    ///
    /// ```
    /// use yolluvek::{Job, Outcome, Refusal, Step, TaskId, WorkerId};
    ///
    /// let mut job = Job::from_text(b"0\n0 0 0\n1 0 1 0\n", 2, 2)?;
    /// job.begin()?;
    /// let worker = WorkerId::new(0);
    /// assert_eq!(job.step(Step::Fetch, worker)?, Outcome::Fetched(TaskId::new(0)));
    /// assert_eq!(job.step(Step::Start, worker)?, Outcome::Started);
    /// let refusal = job.step(Step::Release, worker).unwrap_err();
    /// assert_eq!((refusal.number(), refusal.detail()), (9, 2));
    /// # Ok::<(), Refusal>(())
    /// ```
    pub fn step(&mut self, step: Step, worker: WorkerId) -> Result<Outcome<ItemOf<C>, ReleasedOf<C>>, Refusal> {
        match step {
            Step::Fetch => self.fetch(worker).map(Outcome::Fetched),
            Step::Start => self.start(worker).map(|()| Outcome::Started),
            Step::Complete => self.complete(worker).map(|()| Outcome::Completed),
            Step::Release => self.release(worker).map(Outcome::Released),
        }
    }

    /// Fetch: the worker takes a task that waits in its rings, and is answered which. Its load stays.
    ///
    /// # Errors
    ///
    /// Refused with 7 if there is no such worker, 9 if it isn't idle, 10 if no task waits for it; with 8 before begin.
    ///
    /// ```
    /// use yolluvek::{Job, Refusal, TaskId, WorkerId};
    ///
    /// let mut job = Job::from_text(b"0\n0 0 0\n1 0 1 0\n", 2, 2)?;
    /// job.begin()?;
    /// assert_eq!(job.fetch(WorkerId::new(1)), Err(Refusal::NothingToFetch));
    /// assert_eq!(job.fetch(WorkerId::new(0)), Ok(TaskId::new(0)));
    /// # Ok::<(), Refusal>(())
    /// ```
    pub fn fetch(&mut self, worker: WorkerId) -> Result<ItemOf<C>, Refusal> {
        C::Kind::fetched(&self.taken(Step::Fetch, worker)?)
    }

    /// Start: the worker starts the task that it has fetched.
    ///
    /// # Errors
    ///
    /// Refused with 7 if there is no such worker, 9 if it hasn't just fetched a task; with 8 before begin.
    ///
    /// ```
    /// use yolluvek::{Job, Phase, Refusal, WorkerId};
    ///
    /// let mut job = Job::from_text(b"0\n0 0 0\n1 0 1 0\n", 2, 2)?;
    /// job.begin()?;
    /// let worker = WorkerId::new(0);
    /// assert_eq!(job.start(worker), Err(Refusal::WrongPhase { phase: Phase::Idle }));
    /// job.fetch(worker)?;
    /// job.start(worker)?;
    /// # Ok::<(), Refusal>(())
    /// ```
    pub fn start(&mut self, worker: WorkerId) -> Result<(), Refusal> {
        self.taken(Step::Start, worker)?.moved()
    }

    /// Complete: the task that the worker is running joins the record, and the worker's buffer if it has successors. Its
    /// weight leaves the worker's load. In a weak job the copy joins the record, and the rest comes with the last copy.
    ///
    /// # Errors
    ///
    /// Refused with 7 if there is no such worker, 9 if it isn't running a task; with 8 before begin.
    ///
    /// ```
    /// use yolluvek::{Entry, Job, Refusal, TaskId, WorkerId};
    ///
    /// let mut job = Job::from_text(b"0\n0 0 0\n1 0 1 0\n", 2, 2)?;
    /// job.begin()?;
    /// let worker = WorkerId::new(0);
    /// let task = job.fetch(worker)?;
    /// job.start(worker)?;
    /// job.complete(worker)?;
    /// assert_eq!(job.record(), [Entry { task, worker }]);
    /// # Ok::<(), Refusal>(())
    /// ```
    pub fn complete(&mut self, worker: WorkerId) -> Result<(), Refusal> {
        self.taken(Step::Complete, worker)?.moved()
    }

    /// Release: the next successor of the oldest task in the worker's buffer waits for one task less; if that was the
    /// last, it is placed into a ring that the worker fills, of the worker with the least load or of one after it. In a weak
    /// job a copy of it is placed, the first one so, and later ones with the worker that the successor is fixed to.
    ///
    /// # Errors
    ///
    /// Refused with 7 if there is no such worker, 9 if it isn't idle, 10 if its buffer is empty, 11 if there is no
    /// room; with 8 before begin.
    ///
    /// ```
    /// use yolluvek::{Job, Refusal, Released, TaskId, WorkerId};
    ///
    /// let mut job = Job::from_text(b"2\n0 0 0\n1 5 1 0\n2 3 1 0\n3 0 2 1 2\n", 2, 4)?;
    /// job.begin()?;
    /// let worker = WorkerId::new(0);
    /// assert_eq!(job.release(worker), Err(Refusal::NothingToRelease));
    /// job.fetch(worker)?;
    /// job.start(worker)?;
    /// job.complete(worker)?;
    ///
    /// // both loads are 0, so task 1 goes to worker 0; its weight is 5, so task 2 goes to worker 1
    /// let placed = |task, owner| Released::Placed {
    ///     task: TaskId::new(task),
    ///     owner: WorkerId::new(owner),
    /// };
    /// assert_eq!(job.release(worker), Ok(placed(1, 0)));
    /// assert_eq!(job.release(worker), Ok(placed(2, 1)));
    ///
    /// // task 3 still waits for task 2
    /// job.fetch(worker)?;
    /// job.start(worker)?;
    /// job.complete(worker)?;
    /// assert_eq!(job.release(worker), Ok(Released::DegreeLeft { degree: 1 }));
    /// # Ok::<(), Refusal>(())
    /// ```
    pub fn release(&mut self, worker: WorkerId) -> Result<ReleasedOf<C>, Refusal> {
        C::Kind::released(&self.taken(Step::Release, worker)?)
    }

    /// The library's reply to a step that it accepts.
    fn taken(&mut self, step: Step, worker: WorkerId) -> Result<Reply, Refusal> {
        let calls = C::CALLS;
        let call = match step {
            Step::Fetch => calls.fetch,
            Step::Start => calls.start,
            Step::Complete => calls.complete,
            Step::Release => calls.release,
        };
        let said: Said = call(&mut self.memory, self.workers, self.slots, worker).into();
        let asked = Asked::Step {
            whose: C::WHOSE,
            step,
            tables: &self.memory.tables,
            workers: self.workers,
            slots: self.slots,
            begun: self.begun,
            fixed: &self.memory.fixed,
        };
        asked.answered(said.number, said.detail)?;
        // a log starts at a begin, so that it tells the whole run or nothing
        if let Some(log) = self.log.as_mut().filter(|log| !log.is_empty()) {
            log.push(Call::Step(step, worker));
        }
        Ok(Reply {
            words: said.words,
            tasks: self.tasks(),
            workers: self.workers,
        })
    }

    /// The neighbours of a task on one side.
    pub(crate) fn neighbours(&self, side: Side, task: TaskId) -> Result<&[TaskId], Refusal> {
        let (number, table) = match side {
            Side::Predecessors => (0, &self.memory.tables.preds),
            Side::Successors => (1, &self.memory.succs),
        };
        let judged = ffi::judge_lookup(&self.memory, number, task);
        let asked = Asked::Lookup {
            side,
            tables: &self.memory.tables,
            begun: self.begun,
        };
        asked.answered(judged.number, judged.detail)?;
        reply::part_of(table, ffi::lookup(&self.memory, number, task))
    }
}

/// The neighbour lookup, which a preview doesn't have.
impl Job {
    /// The neighbour lookup: the predecessors of a task as the tables have them, or its successors rising, as that part
    /// of the table itself. Begin writes the successors.
    ///
    /// # Errors
    ///
    /// Refused with 2 for tables beyond the limits, 1 for a wrong number of starts, 3 if there is no such task or its
    /// part of the table is bad; so is that of the successors before an accepted begin.
    ///
    /// ```
    /// use yolluvek::{Job, Refusal, Side, TaskId};
    ///
    /// let mut job = Job::from_text(b"2\n0 0 0\n1 5 1 0\n2 3 1 0\n3 0 2 1 2\n", 2, 4)?;
    /// job.begin()?;
    /// assert_eq!(job.lookup(Side::Predecessors, TaskId::new(3))?, [1, 2].map(TaskId::new));
    /// assert_eq!(job.lookup(Side::Successors, TaskId::new(0))?, [1, 2].map(TaskId::new));
    ///
    /// let refusal = job.lookup(Side::Successors, TaskId::new(4)).unwrap_err();
    /// assert_eq!(refusal.to_string(), "task 4 doesn't exist: there are 4 tasks");
    /// # Ok::<(), Refusal>(())
    /// ```
    pub fn lookup(&self, side: Side, task: TaskId) -> Result<&[TaskId], Refusal> {
        self.neighbours(side, task)
    }
}

/// The log of a run.
impl<C: Caller> JobOf<C> {
    /// Keeps a log from now on. A log starts at an accepted begin; switched on in the middle of a run, it starts at the
    /// next one.
    pub fn keep_log(&mut self) {
        self.log.get_or_insert_with(Vec::new);
    }

    /// The accepted calls of this run in their order, the begin first, where a log is kept: at most 1 more than [`all_steps`](JobOf::all_steps). Refused
    /// calls changed nothing, and aren't in it. Replayed, a log that isn't empty gives the job as it is.
    ///
    /// ```
    /// use yolluvek::{Call, Job, Refusal, Step, WorkerId};
    ///
    /// let mut job = Job::from_text(b"0\n0 0 0\n1 0 1 0\n", 2, 2)?;
    /// job.keep_log();
    /// job.begin()?;
    /// let [zero, one] = [0, 1].map(WorkerId::new);
    /// job.fetch(zero)?;
    /// assert!(job.fetch(one).is_err());
    /// job.start(zero)?;
    /// let calls = [Call::Begin, Call::Step(Step::Fetch, zero), Call::Step(Step::Start, zero)];
    /// assert_eq!(job.log(), calls);
    ///
    /// // a step back: all calls but the last
    /// let replayed = |calls| Job::replay(job.tables().clone(), job.workers(), job.slots(), calls);
    /// let mut back = replayed(&calls[..2]);
    /// assert_ne!(back, job);
    /// back.start(zero)?;
    /// assert_eq!(back, job);
    /// # Ok::<(), Refusal>(())
    /// ```
    pub fn log(&self) -> &[Call] {
        self.log.as_deref().unwrap_or(&[])
    }

    /// Makes a job and these calls on it, one after the other; a call that is refused changes nothing. The job keeps its
    /// log.
    pub fn replay(tables: Tables, workers: usize, slots: usize, calls: &[Call]) -> JobOf<C> {
        let mut job = JobOf::from_tables(tables, workers, slots);
        job.keep_log();
        for &call in calls {
            // refused means untouched, so there is nothing to do about it
            let _refused = match call {
                Call::Begin => job.begin().err(),
                Call::Step(step, worker) => job.step(step, worker).err(),
            };
        }
        job
    }
}
