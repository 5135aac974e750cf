//! A preview: each of its limits with the refusal and its words, beside a job's answer; any input; and drawn previews beside the
//! model at the preview's limits and beside a job.

#[path = "common/odd.rs"]
mod odd;

use engine_model::draw::Draw;
use engine_model::engine::{self, Limits};
use engine_model::memory::{Memory, ROW_WORDS};
use engine_model::model::Graph;
use engine_model::runs::graphs;
use odd::WORDS;
use yolluvek::limits::Limit;
use yolluvek::{Job, Outcome, Preview, Refusal, Released, Step, Tables, TaskId, WorkerId};

/// That many tasks and edges, each edge from a near task to a later one, spread over all tasks.
fn spread(tasks: usize, edges: usize) -> Tables {
    let mut pairs = Vec::new();
    for task in 0..tasks {
        let left = tasks - task;
        let share = (edges - pairs.len()).div_ceil(left);
        pairs.extend((1..=share.min(task)).map(|back| (TaskId::new((task - back) as u32), TaskId::new(task as u32))));
    }
    assert_eq!(pairs.len(), edges);
    Tables::from_edges(vec![1; tasks], pairs)
}

/// Begin and every step are refused by this preview with 2, which names the limit; the preview is as it was.
fn assert_beyond(tables: &Tables, workers: usize, slots: usize, limit: Limit, words: &str) {
    let mut preview = Preview::from_tables(tables.clone(), workers, slots);
    let before = preview.clone();
    let numbers = [0, workers as u32, u32::MAX].map(WorkerId::new);
    let steps = Step::ALL
        .into_iter()
        .flat_map(|step| numbers.map(|worker| (step, worker)));
    let mut refusals: Vec<Refusal> = steps
        .map(|(step, worker)| preview.step(step, worker).expect_err("it is refused"))
        .collect();
    refusals.push(preview.begin().expect_err("it is refused"));
    assert!(!preview.is_begun());
    assert_eq!(preview, before, "a refused call has written");
    let by_job = Job::from_tables(tables.clone(), workers, slots).begin();
    let expected = match by_job.map_err(|refusal| refusal.number()) {
        Err(2) => Refusal::BeyondLimit { limit },
        _ => Refusal::BeyondPreview { limit },
    };
    for refusal in refusals {
        assert_eq!(refusal, expected);
        assert_eq!((refusal.number(), refusal.detail()), (2, 0));
        assert_eq!(refusal.to_string(), words);
    }
}

/// A job of the same tables and numbers begins.
fn assert_job_begins(tables: &Tables, workers: usize, slots: usize) {
    assert_eq!(Job::from_tables(tables.clone(), workers, slots).begin(), Ok(()));
}

#[test]
fn the_limits_themselves() {
    for (tasks, edges, workers, slots) in [(128, 512, 4, 8), (128, 127, 1, 2), (0, 0, 4, 8), (32, 496, 4, 8)] {
        let tables = spread(tasks, edges);
        let mut preview = Preview::from_tables(tables.clone(), workers, slots);
        assert_eq!(preview.begin(), Ok(()));
        while !preview.is_finished() {
            for worker in preview.worker_ids() {
                let turn = [Step::Release, Step::Fetch, Step::Start, Step::Complete];
                turn.into_iter().find(|&step| preview.step(step, worker).is_ok());
            }
        }
        assert_eq!(preview.accepted(), 3 * tasks + edges);
    }
}

#[test]
fn tasks() {
    for tasks in [129, 1_024] {
        let tables = spread(tasks, tasks - 1);
        let words = format!("{tasks} tasks are beyond the preview's limit: at most 128");
        assert_beyond(&tables, 4, 8, Limit::PreviewTasks { tasks }, &words);
        // N comes first
        assert_beyond(&tables, 5, 9, Limit::PreviewTasks { tasks }, &words);
        assert_job_begins(&tables, 4, 8);
    }
}

/// "128 roots at P 4, K 8": 6 with detail 128; 129 tasks: 2.
#[test]
fn roots() {
    let mut preview = Preview::from_tables(spread(128, 0), 4, 8);
    assert_eq!(preview.begin(), Err(Refusal::TooManyRoots { roots: 128, room: 32 }));
    let words = "129 tasks are beyond the preview's limit: at most 128";
    assert_beyond(&spread(129, 0), 4, 8, Limit::PreviewTasks { tasks: 129 }, words);
    let mut job = Job::from_tables(spread(129, 0), 4, 8);
    assert_eq!(job.begin(), Err(Refusal::TooManyRoots { roots: 129, room: 32 }));
    // P·K of them are accepted, and one more isn't
    assert_eq!(Preview::from_tables(spread(32, 0), 4, 8).begin(), Ok(()));
    let mut preview = Preview::from_tables(spread(33, 0), 4, 8);
    assert_eq!(preview.begin(), Err(Refusal::TooManyRoots { roots: 33, room: 32 }));
}

#[test]
fn edges() {
    for edges in [513, 8_128] {
        let tables = spread(128, edges);
        let words = format!("{edges} edges are beyond the preview's limit: at most 512");
        assert_beyond(&tables, 4, 8, Limit::PreviewEdges { edges }, &words);
        assert_job_begins(&tables, 4, 8);
    }
}

#[test]
fn workers() {
    let tables = spread(4, 4);
    for workers in [0, 5, 16, 17, 1 << 32, usize::MAX] {
        let words = format!("the number of workers, {workers}, is beyond the preview's limit: 1 to 4");
        assert_beyond(&tables, workers, 8, Limit::PreviewWorkers { workers }, &words);
    }
    assert_job_begins(&tables, 5, 8);
    assert_job_begins(&tables, 16, 8);
}

#[test]
fn slots() {
    let tables = spread(4, 4);
    for slots in [0, 1, 9, 64, 65, 1 << 32, usize::MAX] {
        let words = format!("the number of slots, {slots}, is beyond the preview's limit: 2 to 8");
        assert_beyond(&tables, 4, slots, Limit::PreviewSlots { slots }, &words);
    }
    assert_job_begins(&tables, 4, 9);
    assert_job_begins(&tables, 4, 64);
}

/// Weights to 65,535, as ever.
#[test]
fn weights() {
    let mut tables = spread(4, 4);
    tables.weights[2] = 65_535;
    assert_eq!(Preview::from_tables(tables.clone(), 4, 8).begin(), Ok(()));
    tables.weights[2] = 65_536;
    let limit = Limit::Weight {
        task: TaskId::new(2),
        weight: 65_536,
    };
    let refusal = Preview::from_tables(tables, 4, 8).begin();
    assert_eq!(refusal, Err(Refusal::BeyondLimit { limit }));
}

/// The preview's 2 comes before a wrong number of starts, 1.
#[test]
fn limits_come_before_lengths() {
    let mut tables = spread(129, 128);
    tables.pred_starts.pop();
    let words = "129 tasks are beyond the preview's limit: at most 128";
    assert_beyond(&tables, 4, 8, Limit::PreviewTasks { tasks: 129 }, words);
    let mut tables = spread(128, 127);
    tables.pred_starts.pop();
    assert_eq!(Preview::from_tables(tables, 4, 8).begin(), Err(Refusal::WrongLength));
}

/// Whatever it is made of, a preview has no memory for more than its limits, besides the tables that it is handed: its own ten
/// lists have at most 1,755 words, those of 128 tasks, 512 edges, 4 workers and 8 slots.
#[test]
fn no_memory_beyond_the_limits() {
    let own = |preview: &Preview| {
        let Tables {
            weights,
            pred_starts,
            preds,
        } = preview.tables();
        preview.words() - weights.len() - pred_starts.len() - preds.len()
    };
    let full = Preview::from_tables(spread(128, 512), 4, 8);
    // successors 129 and 512, degrees 128, rings 128, ends 48, counters 16, buffers 512, record 256, run 2, rows 24
    assert_eq!(own(&full), 129 + 512 + 128 + 128 + 48 + 16 + 512 + 256 + 2 + 24);
    assert_eq!(own(&full), 1_755);
    for (tasks, edges) in [(1_024, 8_192), (300_000, 0), (1, 300_000)] {
        let tables = Tables {
            weights: vec![0; tasks],
            pred_starts: vec![0; tasks + 1],
            preds: vec![TaskId::new(0); edges],
        };
        for number in [4, 5, 1 << 16, usize::MAX] {
            assert!(own(&Preview::from_tables(tables.clone(), number, number)) <= own(&full));
        }
    }
}

const NUMBERS: [usize; 12] = [0, 1, 2, 4, 5, 8, 9, 16, 64, 1 << 32, usize::MAX - 1, usize::MAX];

/// Every call and view, with odd numbers, before and after begin; a refusal prints.
fn make_every_call(preview: &mut Preview) {
    for _ in 0..2 {
        for number in WORDS {
            let (worker, task) = (WorkerId::new(number), TaskId::new(number));
            for step in Step::ALL {
                let refusal = preview.step(step, worker).err();
                assert!(refusal.map_or(0, |refusal| refusal.number()) <= 11);
            }
            assert!(preview.load(worker).is_some() == preview.phase(worker).is_some());
            assert!(preview.held(worker).is_none() || preview.phase(worker).is_some());
            let beside = WorkerId::new(number / 2);
            let waiting = preview.waiting(worker, beside).is_some();
            assert_eq!(waiting, preview.counter(worker, beside).is_some());
            assert!(preview.pointer(worker).is_some() == preview.buffer(worker).is_some());
            assert!(preview.next_release(worker).is_none() || preview.buffer(worker).is_some());
            assert!(preview.degree(task).is_none() || preview.weight(task).is_some());
        }
        assert!(preview.record().len() <= preview.tasks());
        assert_eq!(preview.task_ids().len(), preview.tasks());
        let refusal = preview.begin().err();
        assert_eq!(refusal.is_none(), preview.is_begun());
        let said = refusal.map(|refusal| refusal.to_string());
        assert!(said.map_or(true, |words| !words.is_empty()));
    }
}

/// No input makes a call panic: few words in all places, lists of every short length, odd numbers.
#[test]
fn any_input() {
    for (place, tables) in odd::tables() {
        let (workers, slots) = (NUMBERS[place % NUMBERS.len()], NUMBERS[place / 7 % NUMBERS.len()]);
        make_every_call(&mut Preview::from_tables(tables, workers, slots));
    }
    for text in [&b""[..], b"1022\n", b"0\n0 0 0\n1 0 1 0\n", b"2\n0 0 0\n"] {
        if let Ok(mut preview) = Preview::from_text(text, 4, 8) {
            make_every_call(&mut preview);
        }
    }
}

/// A preview, a job and the model's memory of the same graph, P and K.
struct Three {
    preview: Preview,
    job: Job,
    memory: Memory,
}

fn numbers(refusal: Refusal) -> (u32, u32) {
    (refusal.number(), refusal.detail())
}

impl Three {
    fn new(graph: &Graph, workers: usize, slots: usize) -> Three {
        let Graph { weights, preds } = graph.clone();
        let tables = Tables {
            weights: weights.clone(),
            pred_starts: preds.starts.clone(),
            preds: preds.words.iter().copied().map(TaskId::new).collect(),
        };
        let mut memory = Memory::sized(weights, preds.starts, preds.words, workers.min(16), slots.min(64), 0);
        memory.rows.fill([u32::MAX; ROW_WORDS]);
        Three {
            preview: Preview::from_tables(tables.clone(), workers, slots),
            job: Job::from_tables(tables, workers, slots),
            memory,
        }
    }

    fn within(&self) -> bool {
        let (p, k) = (self.preview.workers(), self.preview.slots());
        Limits::PREVIEW.hold(self.memory.n(), self.memory.e(), p, k)
    }

    /// The preview's answer is the model's and, within its limits, the job's. The number, 0 where it is accepted.
    fn begin(&mut self) -> u32 {
        let (p, k) = (self.preview.workers(), self.preview.slots());
        let expected = engine::begin_within(Limits::PREVIEW, &mut self.memory, p, k);
        let expected = expected.map_err(|refusal| (refusal.number, refusal.detail));
        let found = self.preview.begin();
        if self.within() {
            assert_eq!(self.job.begin(), found);
        }
        let found = found.map_err(numbers);
        assert_eq!(found, expected);
        found.err().map_or(0, |(number, _)| number)
    }

    fn step(&mut self, step: Step, worker: u32) -> u32 {
        use engine_model::memory::Step as Named;
        let (p, k) = (self.preview.workers(), self.preview.slots());
        let named = match step {
            Step::Fetch => Named::Fetch,
            Step::Start => Named::Start,
            Step::Complete => Named::Complete,
            Step::Release => Named::Release,
        };
        let expected = engine::step_within(Limits::PREVIEW, &mut self.memory, p, k, worker, named);
        let expected = expected.map_err(|refusal| (refusal.number, refusal.detail));
        let worker = WorkerId::new(worker);
        let found = self.preview.step(step, worker);
        if self.within() {
            assert_eq!(self.job.step(step, worker), found);
            assert_eq!(self.job.next_release(worker), self.preview.next_release(worker));
        }
        let found = found.map(modelled).map_err(numbers);
        assert_eq!(found, expected);
        found.err().map_or(0, |(number, _)| number)
    }

    /// What the preview shows is what the model's memory holds.
    fn compare(&self) {
        let Three { preview, memory, .. } = self;
        if !preview.is_begun() {
            return;
        }
        let record = preview.record().iter();
        let record: Vec<u32> = record
            .flat_map(|entry| [entry.task.number(), entry.worker.number()])
            .collect();
        assert_eq!(record, memory.executed[..record.len()]);
        assert_eq!([record.len() as u32 / 2, preview.accepted() as u32], memory.run[..]);
        for (worker, row) in preview.worker_ids().zip(&memory.rows) {
            assert_eq!(preview.phase(worker).map(|phase| phase.number()), Some(row[0]));
            assert_eq!(preview.load(worker), self.job.load(worker));
            assert_eq!(preview.held(worker), self.job.held(worker));
            assert_eq!(preview.buffer(worker), self.job.buffer(worker));
        }
        for (task, &degree) in preview.task_ids().zip(&memory.degrees) {
            assert_eq!(preview.degree(task), Some(degree));
        }
    }
}

fn modelled(outcome: Outcome) -> engine_model::memory::Outcome {
    use engine_model::memory::Outcome as Named;
    match outcome {
        Outcome::Fetched(task) => Named::Fetched { task: task.number() },
        Outcome::Started | Outcome::Completed => Named::Moved,
        Outcome::Released(Released::DegreeLeft { degree }) => Named::DegreeLeft { degree },
        Outcome::Released(Released::Placed { task, owner }) => Named::Placed {
            task: task.number(),
            owner: owner.number(),
        },
    }
}

#[test]
fn drawn_previews() {
    let mut counts = [0; 14];
    for seed in 0..16_000 {
        let draw = &mut Draw::new(seed);
        let most = draw.pick(&[3, 12, 12, 40, 140]);
        let graph = graphs::any_within(draw, Limits::PREVIEW, most);
        let workers = draw.pick(&[1, 1, 2, 2, 3, 4, 4, 0, 5, 16, usize::MAX]);
        let slots = draw.pick(&[2, 2, 2, 3, 4, 8, 8, 1, 9, 64, usize::MAX]);
        let mut three = Three::new(&graph, workers, slots);
        let begin_at = draw.below(3);
        for call in 0..draw.between(10, 30 + 6 * graph.weights.len()) {
            let worker = match draw.below(40) {
                0 => draw.pick(&[4, 5, 65_535, u32::MAX]),
                _ => draw.below(workers.clamp(1, 4)) as u32,
            };
            let number = if call == begin_at || draw.below(200) == 0 {
                three.begin()
            } else {
                three.step(draw.pick(&Step::ALL), worker)
            };
            counts[number as usize] += 1;
            if draw.below(8) == 0 {
                three.compare();
            }
        }
        three.compare();
    }
    for number in [0, 2, 6, 7, 8, 9, 10, 11] {
        assert!(counts[number] >= 20, "number {number} is met {} times", counts[number]);
    }
}
