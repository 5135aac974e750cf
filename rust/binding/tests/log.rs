//! Logs and replays, and what makes jobs equal.

use engine_model::draw::Draw;
use engine_model::model::Graph;
use engine_model::runs::graphs;
use std::collections::HashSet;
use std::hash::{BuildHasher, RandomState};
use yolluvek::{Call, Job, Phase, Step, Tables, TaskId, WorkerId};

fn drawn_tables(draw: &mut Draw) -> Tables {
    let Graph { weights, preds } = graphs::any(draw, 14);
    Tables {
        weights,
        pred_starts: preds.starts,
        preds: preds.words.into_iter().map(TaskId::new).collect(),
    }
}

/// Mostly a step that suits the worker's phase.
fn drawn_call(draw: &mut Draw, job: &Job) -> Call {
    let worker = WorkerId::new(draw.below(job.workers() + 1) as u32);
    let suited: &[Step] = match job.phase(worker) {
        Some(Phase::Idle) => &[Step::Release, Step::Fetch],
        Some(Phase::Fetched) => &[Step::Start],
        Some(Phase::Running) => &[Step::Complete],
        None => &Step::ALL,
    };
    match draw.below(200) {
        0 => Call::Begin,
        1..=40 => Call::Step(draw.pick(&Step::ALL), worker),
        _ => Call::Step(draw.pick(suited), worker),
    }
}

/// Whether it is accepted.
fn make(job: &mut Job, call: Call) -> bool {
    match call {
        Call::Begin => job.begin().is_ok(),
        Call::Step(step, worker) => job.step(step, worker).is_ok(),
    }
}

fn replayed(job: &Job, calls: &[Call]) -> Job {
    Job::replay(job.tables().clone(), job.workers(), job.slots(), calls)
}

/// After every call the log is the run's accepted calls, and gives the job again; all calls but the last give the job
/// before it.
#[test]
fn a_log_replayed_is_the_job() {
    let mut steps = 0;
    for seed in 0..300 {
        let draw = &mut Draw::new(seed);
        let mut job = Job::from_tables(drawn_tables(draw), draw.between(1, 4), draw.between(2, 6));
        job.keep_log();
        assert_eq!(job.log(), []);
        let mut expected: Vec<Call> = Vec::new();
        for place in 0..150 {
            let call = if place == 0 {
                Call::Begin
            } else {
                drawn_call(draw, &job)
            };
            let before = job.clone();
            if make(&mut job, call) {
                if call == Call::Begin {
                    expected.clear();
                }
                expected.push(call);
                let back = replayed(&job, &expected[..expected.len() - 1]);
                assert!(call == Call::Begin || back == before);
                steps += 1;
            }
            assert_eq!(job.log(), expected);
            let again = replayed(&job, job.log());
            assert_eq!((&again, again.log()), (&job, job.log()));
        }
        assert!(job.log().len() <= 1 + 3 * job.tasks() + job.edges());
    }
    assert!(steps >= 5_000, "{steps} calls are accepted");
}

/// Refused calls in a list that is replayed change nothing.
#[test]
fn refused_calls_in_a_replay() {
    let mut refused = 0;
    for seed in 0..100 {
        let draw = &mut Draw::new(seed);
        let tables = drawn_tables(draw);
        let mut job = Job::from_tables(tables.clone(), 2, 4);
        let mut calls = Vec::new();
        for place in 0..100 {
            let call = if place == 3 {
                Call::Begin
            } else {
                drawn_call(draw, &job)
            };
            refused += usize::from(!make(&mut job, call));
            calls.push(call);
        }
        assert_eq!(Job::replay(tables, 2, 4, &calls), job);
    }
    assert!(refused >= 1_000, "{refused} calls are refused");
}

const DIAMOND: &[u8] = b"2\n0 0 0\n1 5 1 0\n2 3 1 0\n3 0 2 1 2\n";

/// Switched on in the middle of a run, a log starts at the next begin; a refused begin doesn't end it.
#[test]
fn from_the_next_begin_on() {
    let worker = WorkerId::new(0);
    let mut job = Job::from_text(DIAMOND, 2, 4).expect("a text");
    assert!(make(&mut job, Call::Begin));
    job.fetch(worker).expect("a root waits");
    job.keep_log();
    job.start(worker).expect("it is fetched");
    assert_eq!(job.log(), []);
    assert!(make(&mut job, Call::Begin));
    job.fetch(worker).expect("a root waits");
    // kept already
    job.keep_log();
    assert_eq!(job.log(), [Call::Begin, Call::Step(Step::Fetch, worker)]);
}

/// A log is no part of what a job is: equal jobs, equal hashes.
#[test]
fn equal_whatever_log_they_keep() {
    let worker = WorkerId::new(0);
    let plain = Job::from_text(DIAMOND, 2, 4).expect("a text");
    let mut kept = plain.clone();
    kept.keep_log();
    let mut jobs = HashSet::new();
    let state = RandomState::new();
    let mut both = [plain, kept];
    for call in [
        Call::Begin,
        Call::Step(Step::Fetch, worker),
        Call::Step(Step::Start, worker),
        Call::Step(Step::Complete, worker),
    ] {
        both.iter_mut().for_each(|job| assert!(make(job, call)));
        let [plain, kept] = &both;
        assert_ne!(plain.log(), kept.log());
        assert_eq!(plain, kept);
        assert_eq!(state.hash_one(plain), state.hash_one(kept));
        assert!(jobs.insert(plain.clone()) && !jobs.insert(kept.clone()));
    }
    assert_eq!(jobs.len(), 4);
}
