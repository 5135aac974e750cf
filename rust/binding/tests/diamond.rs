//! The diamond of document 01, through the safe interface.

use yolluvek::{Entry, Job, Phase, Refusal, Released, Side, Step, TaskId, WorkerId};

const TEXT: &[u8] = b"2\n0 0 0\n1 5 1 0\n2 3 1 0\n3 0 2 1 2\n";

fn begun() -> Job {
    let mut job = Job::from_text(TEXT, 2, 4).expect("document 01's text");
    job.begin().expect("document 01's graph");
    job
}

/// "each takes the first accepted of Release, Fetch, Start, Complete, or nothing"
fn turn(job: &mut Job, worker: WorkerId) -> bool {
    job.release(worker).is_ok()
        || job.fetch(worker).is_ok()
        || job.start(worker).is_ok()
        || job.complete(worker).is_ok()
}

/// "Turns go 0, 1, 0, 1, …"; some worker always has a step that is accepted.
fn run(job: &mut Job) {
    while !job.is_finished() {
        let taken = [0, 1].map(|number| turn(job, WorkerId::new(number)));
        assert!(taken.contains(&true), "an unfinished run goes on");
    }
}

fn entries(list: &[(u32, u32)]) -> Vec<Entry> {
    let entry = |&(task, worker)| Entry {
        task: TaskId::new(task),
        worker: WorkerId::new(worker),
    };
    list.iter().map(entry).collect()
}

/// "`4 16`, `0 0`, `2 1`, `1 0`, `3 0`"
#[test]
fn the_desk_s_turns() {
    let mut job = begun();
    run(&mut job);
    assert_eq!((job.tasks(), job.accepted()), (4, 16));
    assert_eq!(job.record(), entries(&[(0, 0), (2, 1), (1, 0), (3, 0)]));
}

/// Begun again, the same run comes out; a copy is a run of its own.
#[test]
fn begun_again() {
    let mut job = begun();
    let first = job.clone();
    run(&mut job);
    let finished = job.clone();
    assert_eq!(job.begin(), Ok(()));
    assert_eq!(job, first);
    run(&mut job);
    assert_eq!(job, finished);
    assert!(!first.is_finished());
}

/// Steps of docs/RULE.md's first example with what the views show on the way.
#[test]
fn views_on_the_way() {
    let [zero, one] = [0, 1].map(WorkerId::new);
    let mut job = begun();
    let loads = |job: &Job| [zero, one].map(|worker| job.load(worker));
    assert_eq!((job.workers(), job.slots(), job.edges()), (2, 4, 4));
    assert_eq!(job.weight(TaskId::new(1)), Some(5));
    assert_eq!(job.weight(TaskId::new(4)), None);

    assert_eq!(job.fetch(zero), Ok(TaskId::new(0)));
    assert_eq!(job.phase(zero), Some(Phase::Fetched));
    assert_eq!(job.held(zero), Some(TaskId::new(0)));
    assert_eq!(job.start(zero), Ok(()));
    assert_eq!(job.phase(zero), Some(Phase::Running));
    assert_eq!(job.complete(zero), Ok(()));
    assert_eq!((job.phase(zero), job.held(zero)), (Some(Phase::Idle), None));
    assert_eq!(job.record(), entries(&[(0, 0)]));

    let placed = |task, owner| Released::Placed {
        task: TaskId::new(task),
        owner,
    };
    assert_eq!(loads(&job), [Some(0), Some(0)]);
    assert_eq!(job.release(zero), Ok(placed(1, zero)));
    assert_eq!(loads(&job), [Some(5), Some(0)]);
    assert_eq!(job.release(zero), Ok(placed(2, one)));
    assert_eq!(loads(&job), [Some(5), Some(3)]);
    assert_eq!(job.fetch(one), Ok(TaskId::new(2)));
    assert_eq!(job.start(one), Ok(()));
    assert_eq!(loads(&job), [Some(5), Some(3)]);
    assert_eq!((job.counter(one, zero), job.counter(one, one)), (Some(3), Some(0)));
    assert_eq!(job.complete(one), Ok(()));
    assert_eq!(loads(&job), [Some(5), Some(0)]);
    assert_eq!((job.counter(one, zero), job.counter(one, one)), (Some(3), Some(-3)));
    assert_eq!(job.accepted(), 8);
    assert!(!job.is_finished());
}

#[test]
fn neighbours() {
    let job = begun();
    let of = |side, task| {
        let found = job.lookup(side, TaskId::new(task)).expect("a task");
        found.iter().map(|task| task.number()).collect::<Vec<_>>()
    };
    let preds: [&[u32]; 4] = [&[], &[0], &[0], &[1, 2]];
    let succs: [&[u32]; 4] = [&[1, 2], &[3], &[3], &[]];
    for (task, (preds, succs)) in (0..).zip(preds.iter().zip(succs)) {
        assert_eq!(of(Side::Predecessors, task), *preds);
        assert_eq!(of(Side::Successors, task), succs);
    }
}

/// No task: "0 steps, begun is finished".
#[test]
fn no_task() {
    let tables = yolluvek::Tables {
        weights: Vec::new(),
        pred_starts: vec![0],
        preds: Vec::new(),
    };
    let mut job = Job::from_tables(tables, 1, 2);
    assert!(!job.is_finished() && !job.is_begun());
    assert_eq!(job.begin(), Ok(()));
    assert!(job.is_finished() && job.is_begun());
    assert_eq!((job.accepted(), job.record()), (0, [].as_slice()));
    assert_eq!(job.fetch(WorkerId::new(0)), Err(Refusal::NothingToFetch));
}

/// Document 01's names, also in columns.
#[test]
fn names() {
    let steps = Step::ALL.map(|step| step.to_string());
    assert_eq!(steps, ["Fetch", "Start", "Complete", "Release"]);
    let phases = [Phase::Idle, Phase::Fetched, Phase::Running];
    assert_eq!(phases.map(|phase| phase.to_string()), ["idle", "fetched", "running"]);
    assert_eq!(format!("{:>8}|{:<6}|", Step::Start, Phase::Idle), "   Start|idle  |");
    assert_eq!((TaskId::from(7).number(), WorkerId::from(7).number()), (7, 7));
}

/// Document 01's list of the lent memory, with N 4, E 4, P 2, K 4.
#[test]
fn words() {
    let tables = 4 + 5 + 4 + 5 + 4 + 4;
    let rings = 2 * 2 * 4 + 3 * 2 * 2 + 2 * 2;
    let rest = 2 * 4 + 2 * 4 + 2 + 2 * 6;
    let job = begun();
    assert_eq!(job.words(), tables + rings + rest);
    // a slot more in each of the four rings
    let mut wider = Job::from_text(TEXT, 2, 5).expect("document 01's text");
    wider.begin().expect("document 01's graph");
    assert_eq!((job.words_differing(&wider), wider.words_differing(&job)), (4, 4));
}
