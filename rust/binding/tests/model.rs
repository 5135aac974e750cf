//! Random jobs and calls beside the model: every answer and every view is the model's.

#[path = "common/drawn.rs"]
mod drawn;

use drawn::{binding_step, damage, model_pair, pair, tables_of};
use engine_model::draw::Draw;
use engine_model::engine;
use engine_model::memory::{
    List, Memory, Outcome, Step, ACCEPTED, COUNT, CURSOR, END_WORDS, ENTRIES, HEAD, HELD, PHASE, POINTER, READ,
    ROW_WORDS, TAIL, WRITE,
};
use engine_model::model::{self, Graph, Lookup, Table};
use engine_model::runs::graphs;
use yolluvek::{Ends, Job, NextRelease, Refusal, Released, Side, TaskId, WorkerId};

/// A job, and the model's memory for the same graph, P and K.
struct Pair {
    job: Job,
    memory: Memory,
    begun: bool,
}

fn model_outcome(outcome: yolluvek::Outcome) -> Outcome {
    use yolluvek::Outcome::{Completed, Fetched, Released as Done, Started};
    match outcome {
        Fetched(task) => Outcome::Fetched { task: task.number() },
        Started | Completed => Outcome::Moved,
        Done(Released::DegreeLeft { degree }) => Outcome::DegreeLeft { degree },
        Done(Released::Placed { task, owner }) => Outcome::Placed {
            task: task.number(),
            owner: owner.number(),
        },
    }
}

/// What was shown of a Release before it is what the Release then did.
fn assert_foreseen(next: Option<NextRelease>, found: &Result<yolluvek::Outcome, Refusal>) {
    use yolluvek::Outcome::Released as Done;
    match found {
        Ok(Done(Released::DegreeLeft { degree })) => assert_eq!(next.map(|next| next.degree), Some(degree + 1)),
        Ok(Done(Released::Placed { task, .. })) | Err(Refusal::NoRoom { task }) => {
            assert_eq!(next.map(|next| (next.successor, next.degree)), Some((*task, 1)));
        }
        Err(Refusal::NothingToRelease | Refusal::NoSuchWorker { .. } | Refusal::NotBegun) => assert_eq!(next, None),
        _ => {}
    }
}

impl Pair {
    /// Beyond its limit a number is judged before any length, so the model's lists need not have them.
    fn new(graph: &Graph, workers: usize, slots: usize) -> Pair {
        let Graph { weights, preds } = graph.clone();
        let mut memory = Memory::sized(weights, preds.starts, preds.words, workers.min(16), slots.min(64), 0);
        memory.rows.fill([u32::MAX; ROW_WORDS]);
        memory.succ_starts.fill(u32::MAX);
        Pair {
            job: Job::from_tables(tables_of(graph), workers, slots),
            memory,
            begun: false,
        }
    }

    fn begin(&mut self) -> Result<(), (u32, u32)> {
        let (p, k) = (self.job.workers(), self.job.slots());
        let expected = engine::begin(&mut self.memory, p, k).map_err(model_pair);
        let found = self.job.begin().map_err(pair);
        assert_eq!(found, expected);
        self.begun |= found.is_ok();
        found
    }

    /// Number and detail, `None` where the step is accepted.
    fn step(&mut self, step: Step, worker: u32) -> Option<(u32, u32)> {
        let (p, k) = (self.job.workers(), self.job.slots());
        let expected = engine::step(&mut self.memory, p, k, worker, step).map_err(model_pair);
        let worker = WorkerId::new(worker);
        let next = self.job.next_release(worker);
        let found = self.job.step(binding_step(step), worker);
        if step == Step::Release {
            assert_foreseen(next, &found);
        }
        assert_eq!(found.map(model_outcome).map_err(pair), expected);
        expected.err()
    }

    fn look_up(&self, successors: bool, task: u32) {
        let lookup = Lookup {
            weights: self.memory.weights.clone(),
            preds: Table {
                starts: self.memory.pred_starts.clone(),
                words: self.memory.preds.clone(),
            },
            succs: Table {
                starts: self.memory.succ_starts.clone(),
                words: self.memory.succs.clone(),
            },
        };
        let (side, model_side) = match successors {
            false => (Side::Predecessors, model::Side::Predecessors),
            true => (Side::Successors, model::Side::Successors),
        };
        let found = self.job.lookup(side, TaskId::new(task));
        match lookup.judge(model_side, task) {
            Err(refusal) => assert_eq!(found.map_err(pair), Err(model_pair(refusal))),
            Ok(()) => {
                let numbers: Vec<u32> = found.expect("accepted").iter().map(|task| task.number()).collect();
                assert_eq!(numbers, lookup.neighbours(model_side, task));
            }
        }
    }

    /// What the job shows is what the model's memory holds.
    fn compare_views(&self) {
        let Pair { job, memory, begun } = self;
        let n = memory.n();
        assert_eq!((job.tasks(), job.edges(), job.is_begun()), (n, memory.e(), *begun));
        assert_eq!(job.accepted(), memory.run[ACCEPTED] as usize);
        let entries = memory.run[ENTRIES] as usize;
        assert_eq!(job.is_finished(), *begun && entries == n);
        let record = job
            .record()
            .iter()
            .flat_map(|entry| [entry.task.number(), entry.worker.number()]);
        assert_eq!(record.collect::<Vec<_>>(), memory.executed[..2 * entries]);
        for (i, row) in memory.rows.iter().enumerate() {
            let worker = WorkerId::new(i as u32);
            let owned = memory.counters.chunks(memory.rows.len()).nth(i).unwrap_or(&[]);
            let load = owned.iter().map(|&counter| i64::from(counter)).sum();
            assert_eq!(job.load(worker), begun.then_some(load));
            assert_eq!(
                job.phase(worker).map(|phase| phase.number()),
                begun.then_some(row[PHASE])
            );
            let held = Some(row[HELD]).filter(|&held| *begun && (held as usize) < n);
            assert_eq!(job.held(worker).map(TaskId::number), held);
        }
        self.compare_rings();
        self.compare_buffers();
        for (task, &degree) in memory.degrees.iter().enumerate() {
            assert_eq!(job.degree(TaskId::new(task as u32)), begun.then_some(degree));
        }
        assert_eq!(job.degree(TaskId::new(n as u32)), None);
        let beyond = WorkerId::new(memory.rows.len() as u32);
        assert_eq!(
            (job.load(beyond), job.phase(beyond), job.held(beyond)),
            (None, None, None)
        );
        assert_eq!(
            (job.pointer(beyond), job.buffer(beyond), job.next_release(beyond)),
            (None, None, None)
        );
    }

    /// Counters, and rings slot by slot from head to tail: "the ring of owner i filled by worker j begins at (i·P + j)·K".
    fn compare_rings(&self) {
        let Pair { job, memory, begun } = self;
        let (p, k) = (memory.rows.len(), job.slots());
        for (i, j) in (0..p).flat_map(|i| (0..=p).map(move |j| (i, j))) {
            let [owner, filler] = [i, j].map(|number| WorkerId::new(number as u32));
            let waiting = job.waiting(owner, filler).map(Vec::from_iter);
            if !begun || j == p {
                assert_eq!((waiting, job.counter(owner, filler)), (None, None));
                assert_eq!(job.ends(owner, filler), None);
                assert_eq!(job.counter(filler, owner), None);
                continue;
            }
            let ring = i * p + j;
            let [head, tail, count] = [HEAD, TAIL, COUNT].map(|place| memory.ends[END_WORDS * ring + place]);
            assert_eq!(job.ends(owner, filler), Some(Ends { head, tail, count }));
            let mut slot = head as usize;
            let mut expected = Vec::new();
            for _ in 0..count {
                expected.push(TaskId::new(memory.rings[ring * k + slot]));
                slot = (slot + 1) % k;
            }
            assert_eq!(slot, tail as usize);
            assert_eq!(waiting, Some(expected));
            assert_eq!(job.counter(owner, filler), Some(memory.counters[ring]));
        }
    }

    /// Pointers, buffers, and the successor at the cursor.
    fn compare_buffers(&self) {
        let Pair { job, memory, begun } = self;
        for (i, row) in memory.rows.iter().enumerate() {
            let worker = WorkerId::new(i as u32);
            let pointer = job.pointer(worker).map(WorkerId::number);
            let buffer = job.buffer(worker);
            if !begun {
                assert_eq!((pointer, buffer, job.next_release(worker)), (None, None, None));
                continue;
            }
            assert_eq!(pointer, Some(row[POINTER]));
            let own = &memory.buffers[i * memory.n()..(i + 1) * memory.n()];
            let numbers: Vec<u32> = buffer.into_iter().flatten().map(|task| task.number()).collect();
            assert_eq!(numbers, own[row[READ] as usize..row[WRITE] as usize]);
            let next = numbers.first().map(|&task| {
                let place = memory.succ_starts[task as usize] + row[CURSOR];
                let successor = memory.succs[place as usize] as usize;
                NextRelease {
                    task: TaskId::new(task),
                    successor: TaskId::new(successor as u32),
                    degree: memory.degrees[successor],
                    weight: memory.weights[successor],
                }
            });
            assert_eq!(job.next_release(worker), next);
        }
    }
}

/// How often each number was answered, at 0 the accepted calls.
type Counts = [usize; 14];

fn drawn_job(seed: u64, counts: &mut Counts) {
    let draw = &mut Draw::new(seed);
    let most = draw.pick(&[3, 12, 12, 40]);
    let mut graph = graphs::any(draw, most);
    if draw.below(4) == 0 {
        damage(draw, &mut graph);
    }
    let workers = draw.pick(&[1, 1, 2, 2, 3, 4, 16, 0, 17, usize::MAX]);
    let slots = draw.pick(&[2, 2, 2, 3, 4, 8, 64, 64, 1, 65, usize::MAX]);
    let mut pair = Pair::new(&graph, workers, slots);
    let check = tables_of(&graph).check().map_err(drawn::pair);
    assert_eq!(check, model::check(model::Limits::ENGINE, &graph).map_err(model_pair));
    let beyond = [16, 17, 65_535, u32::MAX];
    let begin_at = draw.below(4);
    for call in 0..draw.between(20, 30 + 12 * graph.weights.len()) {
        let worker = match draw.below(40) {
            0 => draw.pick(&beyond),
            _ => draw.below(workers.clamp(1, 16)) as u32,
        };
        let answer = if call == begin_at || draw.below(200) == 0 {
            pair.begin().err()
        } else {
            pair.step(draw.pick(&Step::ALL), worker)
        };
        counts[answer.map_or(0, |(number, _)| number as usize)] += 1;
        pair.compare_views();
        if draw.below(8) == 0 {
            let task = draw.below(graph.weights.len() + 2) as u32;
            pair.look_up(draw.below(2) == 0, task);
        }
    }
}

#[test]
fn drawn_jobs() {
    let mut counts = Counts::default();
    (0..20_000).for_each(|seed| drawn_job(seed, &mut counts));
    for number in [0, 1, 2, 3, 4, 5, 6, 7, 8, 9, 10, 11] {
        assert!(counts[number] >= 20, "number {number} is met {} times", counts[number]);
    }
    assert_eq!((counts[12], counts[13]), (0, 0));
}

/// Drawn graphs go through to the end, whoever moves: 3N + E accepted steps, each task after its predecessors.
#[test]
fn whole_runs() {
    for seed in 0..300 {
        let draw = &mut Draw::new(seed);
        let graph = graphs::any(draw, 60);
        let mut pair = Pair::new(&graph, draw.between(1, 16), draw.between(8, 64));
        if pair.begin().is_err() {
            continue;
        }
        while !pair.job.is_finished() {
            let worker = draw.below(pair.job.workers()) as u32;
            let mut steps = Step::ALL;
            draw.shuffle(&mut steps);
            steps.into_iter().any(|step| pair.step(step, worker).is_none());
        }
        pair.compare_views();
        let Pair { job, .. } = pair;
        assert_eq!(job.accepted(), 3 * job.tasks() + job.edges());
        let mut done = vec![false; job.tasks()];
        for entry in job.record() {
            let preds = job.lookup(Side::Predecessors, entry.task).expect("a task");
            assert!(preds.iter().all(|pred| done[pred.number() as usize]));
            done[entry.task.number() as usize] = true;
        }
        assert!(done.into_iter().all(|done| done));
    }
}

/// The words of every list; those of the rows are counted through all records.
fn lists(memory: &Memory) -> Vec<Vec<u32>> {
    let mut memory = memory.clone();
    let words = |list| (0..).map_while(|place| memory.replace(list, place, 0)).collect();
    List::ALL.map(words).to_vec()
}

/// As many words differ after a call as the model has written with others: none after a refused one.
#[test]
fn words_that_calls_write() {
    let mut begun = 0;
    for seed in 0..200 {
        let draw = &mut Draw::new(seed);
        let mut pair = Pair::new(&graphs::any(draw, 12), draw.between(1, 4), draw.between(2, 5));
        if pair.begin().is_err() {
            continue;
        }
        begun += 1;
        for call in 0..60 {
            let (job, words) = (pair.job.clone(), lists(&pair.memory).concat());
            let refused = match call {
                50 => pair.begin().is_err(),
                _ => pair.step(draw.pick(&Step::ALL), draw.below(5) as u32).is_some(),
            };
            let after = lists(&pair.memory).concat();
            let written = words.iter().zip(&after).filter(|(word, after)| word != after).count();
            assert!(written == 0 || !refused);
            assert_eq!(pair.job.words(), after.len());
            assert_eq!(pair.job.words_differing(&job), written);
            assert_eq!(job.words_differing(&pair.job), written);
        }
    }
    assert!(begun >= 100, "{begun} of 200 jobs are begun");
}
