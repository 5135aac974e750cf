//! Load windows of a job beside the model's, with every size and odd ones: before begin, along whole runs, of any tables.

#[path = "common/odd.rs"]
mod odd;

use engine_model::windows;
use yolluvek::limits::{Limit, MAX_WORKERS};
use yolluvek::{Job, Refusal, Step, Tables, TaskId, Window};

const ODD: [usize; 5] = [1 << 16, 1 << 32, usize::MAX / 4, usize::MAX - 1, usize::MAX];

/// The answer is the model's, and so are all sums and spreads; whether it is accepted.
fn compare(job: &Job, m: usize) -> bool {
    let (n, entries, p) = (job.tasks(), job.record().len(), job.workers());
    let recorded = job
        .record()
        .iter()
        .flat_map(|entry| [entry.task.number(), entry.worker.number()]);
    let mut executed: Vec<u32> = recorded.collect();
    executed.resize(2 * n, u32::MAX);
    let mut results = vec![0; (entries + 1).saturating_sub(m) * (p.min(MAX_WORKERS) + 1)];
    let run = [entries as u32, 0];
    let expected = windows::windows(&job.tables().weights, &executed, &run, &mut results, p, m);
    match (job.windows(m), expected) {
        (Ok(found), Ok(())) => {
            assert_eq!(found.len(), entries - m + 1);
            assert!(!found.is_empty());
            let words: Vec<u32> = found
                .iter()
                .flat_map(|window| [window.sums, &[window.spread]].concat())
                .collect();
            assert_eq!(words, results);
            let backwards: Vec<Window<'_>> = found.iter().rev().collect();
            assert_eq!(backwards.first().copied(), found.last());
            assert!((&found).into_iter().eq(backwards.into_iter().rev()));
            true
        }
        (Err(found), Err(expected)) => {
            assert_eq!((found.number(), found.detail()), (expected.number, expected.detail));
            match found {
                Refusal::BadWindow { entries: said } => assert_eq!(said, entries),
                Refusal::BeyondLimit { limit } => assert!(matches!(limit, Limit::Tasks { .. } | Limit::Workers { .. })),
                other => panic!("{other:?}"),
            }
            false
        }
        (found, expected) => panic!("{found:?}, where the model has {expected:?}"),
    }
}

fn compare_all(job: &Job) -> usize {
    let before = job.clone();
    let accepted = (0..job.tasks().min(40) + 3).chain(ODD).filter(|&m| compare(job, m));
    let accepted = accepted.count();
    assert_eq!(*job, before);
    accepted
}

/// One task, then `many`, then one for each three of these.
fn layered(many: u32) -> Tables {
    let weights: Vec<u32> = (0..=many + many / 3).map(|task| task * 7_919 % 65_536).collect();
    let first = (1..=many).map(|task| (0, task));
    let last = (0..many / 3 * 3).map(|place| (1 + place, many + 1 + place / 3));
    Tables::from_edges(weights, first.chain(last))
}

/// After every accepted step that records something, every size of window.
#[test]
fn whole_runs() {
    let mut accepted = 0;
    for (workers, slots, many) in [(1, 64, 5), (2, 16, 9), (3, 16, 18), (16, 8, 24)] {
        let mut job = Job::from_tables(layered(many), workers, slots);
        assert_eq!(compare_all(&job), 0);
        job.begin().expect("accepted");
        let mut turn = 0;
        while !job.is_finished() {
            let entries = job.record().len();
            assert_eq!(job.windows(entries + 1), Err(Refusal::BadWindow { entries }));
            let worker = job.worker_ids().nth(turn % workers).expect("below P");
            turn += 1;
            let _taken = [Step::Release, Step::Fetch, Step::Start, Step::Complete]
                .into_iter()
                .find(|&step| job.step(step, worker).is_ok());
            if job.record().len() > entries {
                accepted += compare_all(&job);
            }
        }
        // the whole record is one window, whose sums add up to the total weight
        let all = job.windows(job.tasks()).expect("every task is recorded");
        let sums: u32 = all.iter().flat_map(|window| window.sums).sum();
        assert_eq!(sums, job.tables().weights.iter().sum::<u32>());
    }
    assert!(accepted > 500, "{accepted}");
}

/// Odd tables and numbers are refused with 2 or 15, begun or not.
#[test]
fn any_tables() {
    for (place, tables) in odd::tables() {
        let workers = [0, 1, 2, 16, 17, 1 << 32, usize::MAX][place % 7];
        let mut job = Job::from_tables(tables, workers, 4);
        assert_eq!(compare_all(&job), 0);
        if job.begin().is_ok() {
            assert_eq!(compare_all(&job), 0);
        }
    }
}

/// 2 names what the call judges: tasks and workers, and not the edges.
#[test]
fn beyond_the_limits() {
    let refusal = |tasks, edges, workers| {
        let tables = Tables {
            weights: vec![1; tasks],
            pred_starts: vec![0; tasks + 1],
            preds: vec![TaskId::new(0); edges],
        };
        let job = Job::from_tables(tables, workers, 0);
        assert!(!compare(&job, 1));
        job.windows(1).expect_err("nothing is recorded")
    };
    let limit = |limit| Refusal::BeyondLimit { limit };
    assert_eq!(refusal(1_025, 0, 2), limit(Limit::Tasks { tasks: 1_025 }));
    assert_eq!(refusal(4, 8_193, 17), limit(Limit::Workers { workers: 17 }));
    assert_eq!(refusal(4, 8_193, 0), limit(Limit::Workers { workers: 0 }));
    assert_eq!(refusal(4, 8_193, 16), Refusal::BadWindow { entries: 0 });
}

/// What the refusal says.
#[test]
fn words() {
    let told = |entries| Refusal::BadWindow { entries }.to_string();
    assert_eq!(told(0), "there is no load window: no task is recorded");
    assert_eq!(told(1), "a load window has from 1 to 1 entries: so many are recorded");
    assert_eq!(told(4), "a load window has from 1 to 4 entries: so many are recorded");
    let refusal = Refusal::BadWindow { entries: 4 };
    assert_eq!((refusal.number(), refusal.detail()), (15, 0));
}
