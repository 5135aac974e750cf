//! One job, four threads, one for each worker: 300 image tiles are corrected, and the seam between two neighbours is
//! blended after both of them.
//!
//! Who is woken when: a thread sleeps only if its worker has nothing to release and nothing to fetch. What ends that is
//! a task placed into one of the worker's rings, and the Release that places it answers the owner; so that one is woken,
//! and no other. A Release that is refused because there is no room is nothing to sleep for: the worker itself owns one
//! of the full rings, and can fetch. At the end the first thread to see that all is done wakes the others.
//!
//! `cargo run --manifest-path rust/Cargo.toml -p yolluvek --example threads`

use std::ops::RangeInclusive;
use std::sync::{Condvar, Mutex, MutexGuard, PoisonError};
use std::thread;
use std::time::Duration;
use yolluvek::{Job, Refusal, Released, Tables, TaskId, WorkerId};

const COLUMNS: u32 = 20;
const ROWS: u32 = 15;

/// Workers, and slots of a ring.
const WORKERS: usize = 4;
const SLOTS: usize = 64;

/// The flight, which every tile waits for. Without it 300 tasks would have no predecessor, and at begin the rings have
/// room for 4 · 64.
pub const FLIGHT: TaskId = TaskId::new(0);

/// The tasks that correct a tile.
pub const TILES: RangeInclusive<u32> = 1..=COLUMNS * ROWS;

/// The two tiles of each seam.
pub fn seams() -> Vec<[u32; 2]> {
    let beside = TILES.filter(|tile| tile % COLUMNS != 0).map(|tile| [tile, tile + 1]);
    let below = TILES.take((COLUMNS * (ROWS - 1)) as usize);
    beside.chain(below.map(|tile| [tile, tile + COLUMNS])).collect()
}

/// The flight, the tiles, then the seams.
pub fn mosaic() -> Tables {
    let seams = seams();
    let weights = [vec![0], vec![9; TILES.count()], vec![4; seams.len()]].concat();
    let first_seam = TILES.end() + 1;
    let blended = (first_seam..)
        .zip(seams)
        .flat_map(|(seam, tiles)| tiles.map(|tile| (tile, seam)));
    let edges = TILES.map(|tile| (FLIGHT.number(), tile)).chain(blended);
    Tables::from_edges(weights, edges)
}

/// A thread that was asleep, woken because a task was placed for its worker.
#[derive(Clone, Copy, Debug, PartialEq, Eq)]
pub struct Wake {
    /// How many steps were accepted before it, the placing Release among them.
    pub accepted: usize,
    pub by: WorkerId,
    pub task: TaskId,
    pub woken: WorkerId,
}

/// What the threads share, behind one lock.
pub struct State {
    pub job: Job,
    /// For each worker, whether its thread sleeps and nobody has woken it yet.
    pub asleep: Vec<bool>,
    pub wakes: Vec<Wake>,
    /// How many Releases found no room.
    pub no_room: usize,
    /// Whether a thread has left: all is done, or it has failed.
    over: bool,
}

/// A job with a bell for each worker.
pub struct Desk {
    state: Mutex<State>,
    bells: Vec<Condvar>,
}

impl Desk {
    /// Begins the job.
    pub fn new(mut job: Job) -> Result<Desk, Refusal> {
        job.begin()?;
        Ok(Desk {
            bells: job.worker_ids().map(|_| Condvar::new()).collect(),
            state: Mutex::new(State {
                asleep: vec![false; job.workers()],
                job,
                wakes: Vec::new(),
                no_room: 0,
                over: false,
            }),
        })
    }

    /// The state, also after a thread that had it has panicked: every call has left the job whole.
    pub fn lock(&self) -> MutexGuard<'_, State> {
        self.state.lock().unwrap_or_else(PoisonError::into_inner)
    }

    /// Runs the job: each worker's thread runs tasks by `run` until all are done. Where one fails, all stop.
    pub fn run(&self, run: impl Fn(&Desk, WorkerId, TaskId) + Sync) -> Result<(), Refusal> {
        let workers = self.lock().job.worker_ids();
        let work = |worker| self.work(worker, &run);
        thread::scope(|scope| {
            let threads: Vec<_> = workers.map(|worker| scope.spawn(move || work(worker))).collect();
            let ended = threads
                .into_iter()
                .map(|thread| thread.join().expect("a task has panicked"));
            ended.fold(Ok(()), Result::and)
        })
    }

    fn work(&self, worker: WorkerId, run: impl Fn(&Desk, WorkerId, TaskId)) -> Result<(), Refusal> {
        let _leaving = Leaving(self);
        while let Some(task) = self.next_task(worker)? {
            // nobody waits for the lock while a task runs
            run(self, worker, task);
            self.lock().job.complete(worker)?;
        }
        Ok(())
    }

    /// The worker's next task, started, when there is one. None if all is done.
    fn next_task(&self, worker: WorkerId) -> Result<Option<TaskId>, Refusal> {
        let mut state = self.lock();
        while !state.job.is_finished() && !state.over {
            self.release_all(&mut state, worker)?;
            match state.job.fetch(worker) {
                Ok(task) => return state.job.start(worker).map(|()| Some(task)),
                Err(Refusal::NothingToFetch) => state = self.sleep(state, worker),
                Err(refusal) => return Err(refusal),
            }
        }
        Ok(None)
    }

    /// Releases what the worker can; the owner of each task placed is woken.
    fn release_all(&self, state: &mut State, worker: WorkerId) -> Result<(), Refusal> {
        loop {
            match state.job.release(worker) {
                Ok(Released::Placed { task, owner }) => self.wake(state, worker, task, owner),
                Ok(Released::DegreeLeft { .. }) => {}
                Err(Refusal::NothingToRelease) => return Ok(()),
                Err(Refusal::NoRoom { .. }) => {
                    state.no_room += 1;
                    return Ok(());
                }
                Err(refusal) => return Err(refusal),
            }
        }
    }

    fn wake(&self, state: &mut State, by: WorkerId, task: TaskId, owner: WorkerId) {
        let place = owner.number() as usize;
        if std::mem::take(&mut state.asleep[place]) {
            let accepted = state.job.accepted();
            state.wakes.push(Wake {
                accepted,
                by,
                task,
                woken: owner,
            });
            self.bells[place].notify_one();
        }
    }

    fn sleep<'a>(&'a self, mut state: MutexGuard<'a, State>, worker: WorkerId) -> MutexGuard<'a, State> {
        let place = worker.number() as usize;
        state.asleep[place] = true;
        let woken = self.bells[place].wait_while(state, |state| state.asleep[place] && !state.over);
        woken.unwrap_or_else(PoisonError::into_inner)
    }
}

/// Wakes all threads when one leaves, for whatever reason, a panic too.
struct Leaving<'a>(&'a Desk);

impl Drop for Leaving<'_> {
    fn drop(&mut self) {
        self.0.lock().over = true;
        self.0.bells.iter().for_each(Condvar::notify_all);
    }
}

fn main() -> Result<(), Refusal> {
    let desk = Desk::new(Job::from_tables(mosaic(), WORKERS, SLOTS))?;
    desk.run(|_, _, task| thread::sleep(duration(task)))?;
    print(&desk.lock());
    Ok(())
}

/// How long a task takes here: a tile longer than a seam, the flight longest.
fn duration(task: TaskId) -> Duration {
    Duration::from_micros(match task {
        FLIGHT => 5_000,
        _ if TILES.contains(&task.number()) => 90,
        _ => 40,
    })
}

fn print(state: &State) {
    let State {
        job, wakes, no_room, ..
    } = state;
    let (tasks, edges, accepted) = (job.tasks(), job.edges(), job.accepted());
    println!("{tasks} tasks, {edges} edges: {accepted} accepted steps");
    println!("{no_room} Releases found no room; the worker fetched instead");
    for worker in job.worker_ids() {
        let completed = job.record().iter().filter(|entry| entry.worker == worker).count();
        let woken = wakes.iter().filter(|wake| wake.woken == worker).count();
        println!("worker {worker}: tasks {completed}, woken {woken}");
    }
    for wake in wakes.iter().take(8) {
        let Wake {
            accepted,
            by,
            task,
            woken,
        } = wake;
        println!("at step {accepted} worker {by} places task {task}: worker {woken} is woken");
    }
}
