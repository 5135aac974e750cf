//! Random weak jobs and calls beside the model: every answer and every view is the model's.

#[path = "common/drawn.rs"]
mod drawn;

use drawn::{binding_step, damage, model_pair, pair, tables_of};
use engine_model::draw::Draw;
use engine_model::memory::{Lists, Step, ACCEPTED, COUNT, END_WORDS, ENTRIES, HEAD, NIL, TAIL};
use engine_model::model::Graph;
use engine_model::pages;
use engine_model::runs::graphs;
use engine_model::weak::{
    self, Copied, Memory, Outcome, ENTRY_WORDS, HELD_PRED, HELD_TASK, PHASE, POINTER, READ, ROOTS, ROW_WORDS, WRITE,
};
use std::collections::HashSet;
use yolluvek::{Call, CopyEntry, Ends, Placed, Refusal, Side, TaskCopy, TaskId, WeakJob, WorkerId};

/// A weak job, and the model's memory for the same graph, P and K.
struct Pair {
    job: WeakJob,
    memory: Memory,
    begun: bool,
}

fn copied(copy: TaskCopy) -> Copied {
    Copied {
        task: copy.task.number(),
        pred: copy.predecessor.map_or(NIL, TaskId::number),
    }
}

fn model_outcome(outcome: yolluvek::Outcome<TaskCopy, Placed>) -> Outcome {
    match outcome {
        yolluvek::Outcome::Fetched(copy) => Outcome::Fetched { copy: copied(copy) },
        yolluvek::Outcome::Started | yolluvek::Outcome::Completed => Outcome::Moved,
        yolluvek::Outcome::Released(Placed { copy, owner }) => Outcome::Placed {
            copy: copied(copy),
            owner: owner.number(),
        },
    }
}

impl Pair {
    /// Beyond its limit a number is judged before any length, so the model's lists need not have them.
    fn new(graph: &Graph, workers: usize, slots: usize) -> Pair {
        let Graph { weights, preds } = graph.clone();
        let mut memory = Memory::sized(weights, preds.starts, preds.words, workers.min(16), slots.min(64), 0);
        memory.rows.fill([u32::MAX; ROW_WORDS]);
        Pair {
            job: WeakJob::from_tables(tables_of(graph), workers, slots),
            memory,
            begun: false,
        }
    }

    fn begin(&mut self) -> Result<(), (u32, u32)> {
        let (p, k) = (self.job.workers(), self.job.slots());
        let expected = weak::begin(&mut self.memory, p, k).map_err(model_pair);
        let found = self.job.begin().map_err(pair);
        assert_eq!(found, expected);
        self.begun |= found.is_ok();
        found
    }

    /// Number and detail, `None` where the step is accepted. A refused one changes nothing.
    fn step(&mut self, step: Step, worker: u32) -> Option<(u32, u32)> {
        let (p, k) = (self.job.workers(), self.job.slots());
        let expected = weak::step(&mut self.memory, p, k, worker, step).map_err(model_pair);
        let before = self.job.clone();
        let found = self.job.step(binding_step(step), WorkerId::new(worker));
        match &found {
            Err(Refusal::RingFull { task, owner }) => assert_eq!(before.fixed(*task), Some(*owner)),
            Err(Refusal::NoRoomForFirst { task }) => assert_eq!(before.fixed(*task), None),
            Err(Refusal::NoRoom { task }) => panic!("task {task} is a plain job's"),
            Ok(yolluvek::Outcome::Released(Placed { copy, owner })) => {
                assert_eq!(self.job.fixed(copy.task), Some(*owner));
                let next = before.next_release(WorkerId::new(worker));
                let foreseen = next.map(|next| (next.successor, Some(next.task)));
                assert_eq!(foreseen, Some((copy.task, copy.predecessor)));
            }
            _ => {}
        }
        assert!(found.is_ok() || self.job == before);
        assert_eq!(found.map(model_outcome).map_err(pair), expected);
        expected.err()
    }

    /// What the job shows is what the model's memory holds.
    fn compare_views(&self) {
        let Pair { job, memory, begun } = self;
        assert_eq!(
            (job.tasks(), job.edges(), job.is_begun()),
            (memory.n(), memory.e(), *begun)
        );
        assert_eq!(job.accepted(), memory.run[ACCEPTED] as usize);
        let roots = memory.run[ROOTS] as usize;
        assert_eq!(job.roots(), begun.then_some(roots));
        let entries = memory.run[ENTRIES] as usize;
        assert_eq!(job.is_finished(), *begun && entries == memory.e() + roots);
        let words = job.record().flat_map(|CopyEntry { copy, worker }| {
            let Copied { task, pred } = copied(copy);
            [task, pred, worker.number()]
        });
        assert_eq!(words.collect::<Vec<_>>(), memory.executed[..ENTRY_WORDS * entries]);
        for task in 0..memory.n() {
            let id = TaskId::new(task as u32);
            let fixed = Some(memory.fixed[task]).filter(|&fixed| *begun && (fixed as usize) < memory.rows.len());
            assert_eq!(job.fixed(id).map(WorkerId::number), fixed);
            assert_eq!(job.degree(id), begun.then_some(memory.degrees[task]));
        }
        if *begun {
            (0..memory.rows.len()).for_each(|worker| self.compare_worker(worker));
        }
    }

    /// The row, the load, the rings slot by slot, and the buffer of a worker.
    fn compare_worker(&self, i: usize) {
        let Pair { job, memory, .. } = self;
        let (p, k, row) = (memory.rows.len(), job.slots(), memory.rows[i]);
        let worker = WorkerId::new(i as u32);
        let load = memory.counters[i * p..(i + 1) * p]
            .iter()
            .map(|&one| i64::from(one))
            .sum();
        assert_eq!(job.load(worker), Some(load));
        assert_eq!(job.phase(worker).map(|phase| phase.number()), Some(row[PHASE]));
        assert_eq!(job.pointer(worker).map(WorkerId::number), Some(row[POINTER]));
        let held = Copied {
            task: row[HELD_TASK],
            pred: row[HELD_PRED],
        };
        assert_eq!(job.held(worker).map(copied), Some(held).filter(|held| held.task != NIL));
        for j in 0..p {
            let (ring, filler) = (i * p + j, WorkerId::new(j as u32));
            let [head, tail, count] = [HEAD, TAIL, COUNT].map(|place| memory.ends[END_WORDS * ring + place]);
            assert_eq!(job.ends(worker, filler), Some(Ends { head, tail, count }));
            let slots = (0..count as usize).map(|place| memory.rings[ring * k + (head as usize + place) % k]);
            let slots: Vec<Copied> = slots.map(|[task, pred]| Copied { task, pred }).collect();
            let waiting = job.waiting(worker, filler).expect("a ring").map(copied);
            assert_eq!(waiting.collect::<Vec<_>>(), slots);
            assert_eq!(job.counter(worker, filler), Some(memory.counters[ring]));
        }
        let own = &memory.buffers[i * memory.n()..(i + 1) * memory.n()];
        let buffer: Vec<u32> = job
            .buffer(worker)
            .expect("a buffer")
            .iter()
            .map(|task| task.number())
            .collect();
        assert_eq!(buffer, own[row[READ] as usize..row[WRITE] as usize]);
    }
}

/// How often each number was answered, at 0 the accepted calls.
type Counts = [usize; 14];

fn drawn_job(seed: u64, counts: &mut Counts) {
    let draw = &mut Draw::new(seed);
    let most = draw.pick(&[3, 12, 12, 40]);
    let mut graph = graphs::any(draw, most);
    if draw.below(3) == 0 {
        damage(draw, &mut graph);
    }
    let workers = draw.pick(&[1, 1, 2, 2, 3, 4, 16, 0, 17, usize::MAX]);
    let slots = draw.pick(&[2, 2, 2, 3, 4, 8, 64, 64, 1, 65, usize::MAX]);
    let mut pair = Pair::new(&graph, workers, slots);
    let begin_at = draw.below(4);
    for call in 0..draw.between(20, 30 + 12 * graph.weights.len()) {
        let worker = match draw.below(40) {
            0 => draw.pick(&[16, 17, 65_535, u32::MAX]),
            _ => draw.below(workers.clamp(1, 16)) as u32,
        };
        let answer = if call == begin_at || draw.below(200) == 0 {
            pair.begin().err()
        } else {
            pair.step(draw.pick(&Step::ALL), worker)
        };
        counts[answer.map_or(0, |(number, _)| number as usize)] += 1;
        pair.compare_views();
    }
}

#[test]
fn drawn_jobs() {
    let mut counts = Counts::default();
    (0..4_000).for_each(|seed| drawn_job(seed, &mut counts));
    for number in [0, 1, 2, 3, 4, 5, 6, 7, 8, 9, 10, 11] {
        assert!(counts[number] >= 3, "number {number} is met {} times", counts[number]);
    }
    assert_eq!((counts[12], counts[13]), (0, 0));
}

/// Drawn graphs go through to the end, whoever moves: 4E + 3R accepted steps, each copy once, behind all copies of its
/// predecessor, and by the worker that its task is fixed to. Replayed, the log gives the same job.
#[test]
fn whole_runs() {
    for seed in 0..300 {
        let draw = &mut Draw::new(seed);
        let graph = graphs::any(draw, 60);
        let mut pair = Pair::new(&graph, draw.between(1, 16), draw.between(8, 64));
        pair.job.keep_log();
        if pair.begin().is_err() {
            continue;
        }
        while !pair.job.is_finished() {
            let worker = draw.below(pair.job.workers()) as u32;
            let mut steps = Step::ALL;
            draw.shuffle(&mut steps);
            steps.into_iter().any(|step| pair.step(step, worker).is_none());
        }
        pair.compare_views();
        let Pair { job, .. } = pair;
        let roots = job.roots().expect("begun");
        assert_eq!(job.accepted(), 4 * job.edges() + 3 * roots);
        assert_eq!((job.accepted(), job.recorded()), (job.all_steps(), job.all_entries()));
        assert_eq!(job.record().len(), job.edges() + roots);
        let mut copies: Vec<usize> = vec![0; job.tasks()];
        let mut seen = HashSet::new();
        for CopyEntry { copy, worker } in job.record() {
            assert!(seen.insert(copy));
            assert_eq!(job.fixed(copy.task), Some(worker));
            if let Some(pred) = copy.predecessor {
                let before = job.lookup(Side::Predecessors, pred).expect("a task").len().max(1);
                assert_eq!(copies[pred.number() as usize], before);
            }
            copies[copy.task.number() as usize] += 1;
        }
        assert!(job.worker_ids().all(|worker| job.load(worker) == Some(0)));
        assert_eq!(job.log().first(), Some(&Call::Begin));
        let again = WeakJob::replay(job.tables().clone(), job.workers(), job.slots(), job.log());
        assert_eq!(again, job);
    }
}

/// One worker with a ring of two, tasks 1, 2 and 3 after 0 and before 4: the first two copies of task 4 fill the ring, and
/// the third is refused in words of its own. A first copy without room is refused as in a plain job.
#[test]
fn a_later_copy_finds_its_ring_full() -> Result<(), Refusal> {
    let edges = [(0, 1), (0, 2), (0, 3), (1, 4), (2, 4), (3, 4)];
    let mut job = WeakJob::from_tables(yolluvek::Tables::from_edges([0, 1, 1, 1, 7], edges), 1, 2);
    job.begin()?;
    let worker = WorkerId::new(0);
    let work = |job: &mut WeakJob| -> Result<TaskCopy, Refusal> {
        let copy = job.fetch(worker)?;
        job.start(worker)?;
        job.complete(worker)?;
        Ok(copy)
    };
    work(&mut job)?;
    job.release(worker)?;
    job.release(worker)?;
    let no_room = Refusal::NoRoomForFirst { task: TaskId::new(3) };
    assert_eq!(job.release(worker), Err(no_room));
    work(&mut job)?;
    job.release(worker)?;
    work(&mut job)?;
    work(&mut job)?;
    let copies = [job.release(worker)?, job.release(worker)?].map(|placed| placed.copy.to_string());
    assert_eq!(copies, ["4·1", "4·2"]);
    let full = job.release(worker).unwrap_err();
    assert_eq!((full.number(), full.detail()), (11, 4));
    assert_eq!(
        full.to_string(),
        "no room for a copy of task 4: it is fixed to worker 0, whose ring that the worker fills is full"
    );
    // the weight counts once, until the last of three copies is completed
    for left in [2, 1, 0] {
        assert_eq!(job.load(worker), Some(7));
        work(&mut job)?;
        assert_eq!(job.degree(TaskId::new(4)), Some(left));
        let _ = job.release(worker);
    }
    assert_eq!((job.load(worker), job.is_finished()), (Some(0), true));
    Ok(())
}

/// Worker 0's fifth Release finds no room for the first copy of task 6. Worker 1 makes P accepted Fetches, and its Release
/// fixes task 6 to worker 0: the refused copy is a later one now, and only worker 0 makes room for it.
#[test]
fn a_first_copy_becomes_a_later_one() -> Result<(), Refusal> {
    let edges = [(0, 2), (0, 3), (0, 4), (0, 5), (0, 6), (1, 6)];
    let mut job = WeakJob::from_tables(yolluvek::Tables::from_edges([0; 7], edges), 2, 2);
    job.begin()?;
    let [zero, one] = [0, 1].map(WorkerId::new);
    let task = TaskId::new(6);
    let work = |job: &mut WeakJob, worker| -> Result<String, Refusal> {
        let copy = job.fetch(worker)?;
        job.start(worker)?;
        job.complete(worker)?;
        Ok(copy.to_string())
    };
    work(&mut job, zero)?;
    for _ in 2..6 {
        job.release(zero)?;
    }
    let first = job.release(zero).unwrap_err();
    assert_eq!(first, Refusal::NoRoomForFirst { task });
    assert_eq!((first.number(), first.detail()), (11, 6));
    // the task waits for worker 1's Release too
    assert_eq!(job.degree(task), Some(2));

    let fetched = [work(&mut job, one)?, work(&mut job, one)?];
    assert_eq!(fetched, ["4·0", "1"]);
    assert_eq!(job.release(one)?.owner, zero);
    let later = job.release(zero).unwrap_err();
    assert_eq!(later, Refusal::RingFull { task, owner: zero });
    // worker 1 has made P accepted Fetches since the first refusal, which the advice doesn't take to suffice
    let said = "After at most P accepted Fetches of any one worker there is room; but once another worker's Release has fixed \
                the task, only of the worker that it is fixed to.";
    assert!(first.advice().contains(said), "{}", first.advice());
    assert!(!later.advice().contains("any one worker"));
    let itself =
        "If that is the refused worker itself, it starts and completes what it has fetched before it fetches or \
                  releases again.";
    assert!(later.advice().contains(itself));

    // what is left for worker 1 doesn't help, and worker 0 makes room with P accepted Fetches of its own
    assert_eq!(work(&mut job, one)?, "5·0");
    assert!(job.fetch(one).is_err() && job.release(zero).is_err());
    assert_eq!(work(&mut job, zero)?, "6·1");
    assert!(job.release(zero).is_err());
    assert_eq!(work(&mut job, zero)?, "2·0");
    assert_eq!(job.release(zero)?.owner, zero);

    let page = pages::refusals().stored().unwrap_or_else(|wrong| panic!("{wrong}"));
    let page = page.split_whitespace().collect::<Vec<_>>().join(" ");
    for told in [
        "In a weak job a Release always places a copy, and its task may wait for other Releases too.",
        "With P 2, K 2, no weights and the edges 0→2, 0→3, 0→4, 0→5, 0→6 and 1→6 the fifth Release of worker 0 is refused, \
         with detail 6; worker 1 fetches twice and releases its copy of task 6, which fixes it to worker 0; and worker 0 is \
         refused again, until it has fetched twice itself: its first Fetch takes the copy that worker 1 released.",
    ] {
        assert!(page.contains(told), "{told}");
    }
    Ok(())
}
