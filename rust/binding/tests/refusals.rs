//! Each number that the safe interface can meet, on the example of document 01's table: the typed refusal, its words,
//! and that the job is as it was. 12 can't be met: `Complete` finds N entries only where N tasks are completed, and
//! then no worker runs one.

use yolluvek::limits::Limit;
use yolluvek::{Fault, Job, Lack, Phase, Refusal, Side, Step, Tables, TaskId, WorkerId};

const DIAMOND: &[u8] = b"2\n0 0 0\n1 5 1 0\n2 3 1 0\n3 0 2 1 2\n";

/// The tables of each task's predecessors, every weight 1.
fn tables(lists: &[&[u32]]) -> Tables {
    let ends = lists.iter().scan(0, |end, list| {
        *end += list.len() as u32;
        Some(*end)
    });
    Tables {
        weights: vec![1; lists.len()],
        pred_starts: std::iter::once(0).chain(ends).collect(),
        preds: lists.concat().into_iter().map(TaskId::new).collect(),
    }
}

/// What a call on the job is refused with; refused twice alike, the job being as it was.
fn refused<T: std::fmt::Debug>(job: &mut Job, call: impl Fn(&mut Job) -> Result<T, Refusal>) -> Refusal {
    let before = job.clone();
    let refusal = call(job).expect_err("it is refused");
    assert_eq!(*job, before, "a refused call has written");
    assert_eq!(call(job).expect_err("it is refused again"), refusal);
    refusal
}

fn refused_begin(tables: Tables, workers: usize, slots: usize) -> Refusal {
    let mut job = Job::from_tables(tables, workers, slots);
    let refusal = refused(&mut job, Job::begin);
    assert!(!job.is_begun());
    refusal
}

/// Number, detail and words of a refusal.
fn assert_says(refusal: Refusal, number: u32, detail: u32, words: &str) {
    assert_eq!((refusal.number(), refusal.detail()), (number, detail));
    assert_eq!(refusal.to_string(), words);
}

fn begun(tables: Tables, workers: usize, slots: usize) -> Job {
    let mut job = Job::from_tables(tables, workers, slots);
    assert_eq!(job.begin(), Ok(()));
    job
}

fn execute(job: &mut Job, worker: WorkerId) {
    job.fetch(worker).expect("a task waits");
    job.start(worker).expect("it is fetched");
    job.complete(worker).expect("it is running");
}

const LENGTH: &str = "a list has the wrong length: there has to be one predecessor start more than there are weights";

#[test]
fn number_1() {
    for starts in [vec![], vec![0], vec![0, 0], vec![0; 4]] {
        let wrong = Tables {
            pred_starts: starts,
            ..tables(&[&[], &[]])
        };
        assert_eq!(wrong.check(), Err(Refusal::WrongLength));
        assert_says(refused_begin(wrong.clone(), 1, 2), 1, 0, LENGTH);
        let mut job = Job::from_tables(wrong, 1, 2);
        let worker = WorkerId::new(0);
        assert_eq!(refused(&mut job, |job| job.fetch(worker)), Refusal::WrongLength);
        let lookup = job.lookup(Side::Predecessors, TaskId::new(0));
        assert_eq!(lookup, Err(Refusal::WrongLength));
    }
}

/// 2 by a call, with the limit and its words.
fn assert_beyond(refusal: Refusal, limit: Limit, words: &str) {
    assert_eq!(refusal, Refusal::BeyondLimit { limit });
    assert_says(refusal, 2, 0, words);
}

#[test]
fn number_2_by_workers_and_slots() {
    let far = usize::MAX;
    let workers = [0, 17, 65_536, far / 2, far].map(|workers| (workers, 4));
    let slots = [0, 1, 65, 65_536, far / 2, far].map(|slots| (2, slots));
    for (workers, slots) in workers.into_iter().chain(slots).chain([(0, 0), (far, far)]) {
        let (limit, words) = match workers {
            2 => (
                Limit::Slots { slots },
                format!("the number of slots, {slots}, is beyond its limit: 2 to 64"),
            ),
            _ => (
                Limit::Workers { workers },
                format!("the number of workers, {workers}, is beyond its limit: 1 to 16"),
            ),
        };
        assert_beyond(refused_begin(tables(&[&[], &[0]]), workers, slots), limit, &words);
        let mut job = Job::from_tables(tables(&[&[], &[0]]), workers, slots);
        for step in Step::ALL {
            let refusal = refused(&mut job, |job| job.step(step, WorkerId::new(0)));
            assert_beyond(refusal, limit, &words);
        }
        // a lookup has no workers and slots
        let task = [TaskId::new(0)];
        assert_eq!(job.lookup(Side::Predecessors, TaskId::new(1)), Ok(&task[..]));
    }
}

/// Tables of these sizes, every weight the same.
fn sized(tasks: usize, edges: usize, weight: u32) -> Tables {
    Tables {
        weights: vec![weight; tasks],
        pred_starts: vec![0; tasks + 1],
        preds: vec![TaskId::new(0); edges],
    }
}

/// N and E, each just beyond and far beyond.
#[test]
fn number_2_by_sizes() {
    for (tasks, edges) in [(1_025, 0), (300_000, 0), (2, 8_193), (2, 300_000), (1_025, 8_193)] {
        let (limit, words) = match tasks {
            2 => (
                Limit::Edges { edges },
                format!("{edges} edges are beyond the limit: at most 8192"),
            ),
            _ => (
                Limit::Tasks { tasks },
                format!("{tasks} tasks are beyond the limit: at most 1024"),
            ),
        };
        let tables = sized(tasks, edges, 0);
        assert_beyond(tables.check().unwrap_err(), limit, &words);
        let mut job = Job::from_tables(tables.clone(), 16, 64);
        let lookup = job.lookup(Side::Predecessors, TaskId::new(0)).unwrap_err();
        assert_beyond(lookup, limit, &words);
        let worker = WorkerId::new(0);
        assert_beyond(refused(&mut job, |job| job.release(worker)), limit, &words);
        assert_beyond(refused_begin(tables, 16, 64), limit, &words);
    }
}

/// The first weight beyond the limit is named, by the check and by begin; the limits themselves are accepted.
#[test]
fn number_2_by_a_weight() {
    for weight in [65_536, u32::MAX] {
        let mut heavy = sized(3, 0, weight);
        heavy.weights[0] = 65_535;
        let limit = Limit::Weight {
            task: TaskId::new(1),
            weight,
        };
        let words = format!("the weight of task 1, {weight}, is beyond its limit: at most 65535");
        assert_beyond(heavy.check().unwrap_err(), limit, &words);
        assert_beyond(refused_begin(heavy, 1, 4), limit, &words);
    }
    assert_eq!(begun(sized(1_008, 0, 65_535), 16, 64).tasks(), 1_008);
    assert_eq!(sized(1_024, 0, 65_535).check(), Ok(()));
}

#[test]
fn number_2_by_a_text() {
    let long = [DIAMOND, &vec![b' '; 65_537]].concat();
    let bytes = long.len();
    let words = format!("a text of {bytes} bytes is beyond the limit: at most 65536");
    assert_beyond(Tables::from_text(&long).unwrap_err(), Limit::Text { bytes }, &words);
    let words = "the text asks for 1025 tasks, its two dummies among them, which are beyond the limit: at most 1024";
    let refusal = Tables::from_text(b"# images\n 1023\n").unwrap_err();
    assert_beyond(refusal, Limit::TextTasks { tasks: 1_025 }, words);
    // 128 tasks with all tasks before them as predecessors: the edges pass 8,192 at task 128, in the line of the comment too
    let tasks = (1..200).map(|task| {
        let preds: Vec<String> = (0..task).map(|pred: u32| pred.to_string()).collect();
        format!("{task} 1 {task} {}\n", preds.join(" "))
    });
    let text = format!("198\n# a comment\n0 0 0\n{}", tasks.collect::<String>());
    let words = "with line 131 the text has more edges than the limit: at most 8192";
    let refusal = Tables::from_text(text.as_bytes()).unwrap_err();
    assert_beyond(refusal, Limit::TextEdges { line: 131 }, words);
}

/// "N 2, predecessor 2"; a wrong first or last start names N; a lookup names the task.
#[test]
fn number_3() {
    let bad = tables(&[&[], &[2]]);
    let words = "task 1 has predecessor 2, which doesn't exist: there are 2 tasks";
    assert_says(refused_begin(bad.clone(), 1, 2), 3, 1, words);
    let task = TaskId::new(1);
    let fault = Fault::Predecessor {
        number: TaskId::new(2),
        tasks: 2,
    };
    assert_eq!(bad.check(), Err(Refusal::BadPart { task, fault }));
    let job = Job::from_tables(bad, 1, 2);
    assert_says(job.lookup(Side::Predecessors, TaskId::new(1)).unwrap_err(), 3, 1, words);
    let missing = job.lookup(Side::Predecessors, TaskId::new(2)).unwrap_err();
    assert_says(missing, 3, 2, "task 2 doesn't exist: there are 2 tasks");
    let successors = job.lookup(Side::Successors, TaskId::new(1)).unwrap_err();
    let words = "the successors of task 1 aren't known before begin: begin first";
    assert_says(successors, 3, 1, words);
    let missing = job.lookup(Side::Successors, TaskId::new(2)).unwrap_err();
    assert_says(missing, 3, 2, "task 2 doesn't exist: there are 2 tasks");

    for (starts, detail, words) in [
        (
            [0, 0, 0],
            2,
            "predecessor 0 at place 0 belongs to no task: the last start is 0, and there is 1 predecessor",
        ),
        ([1, 1, 1], 2, "the first predecessor start is 1, and has to be 0"),
        ([0, 1, 0], 1, "the starts of task 1 fall, from 1 to 0"),
        (
            [0, 0, 2],
            1,
            "the starts of task 1 lead to place 2, and there is 1 predecessor",
        ),
    ] {
        let wrong = Tables {
            pred_starts: starts.to_vec(),
            ..tables(&[&[], &[0]])
        };
        assert_says(refused_begin(wrong, 1, 2), 3, detail, words);
    }
    // no edge leads to a task that isn't there, and a start of this table is wrong
    let wrong = Tables {
        pred_starts: vec![0, 0, 0],
        ..tables(&[&[], &[0]])
    };
    let advice = wrong.check().unwrap_err().advice();
    assert!(
        advice.ends_with(", or for a start that was filled wrongly."),
        "{advice}"
    );

    let single = begun(tables(&[&[]]), 1, 2);
    let missing = single.lookup(Side::Successors, TaskId::new(u32::MAX)).unwrap_err();
    assert_says(missing, 3, u32::MAX, "task 4294967295 doesn't exist: there is 1 task");
}

/// "task 3: 1, 1"
#[test]
fn number_4() {
    let twice = tables(&[&[], &[], &[], &[1, 1]]);
    assert_says(refused_begin(twice, 1, 4), 4, 3, "a predecessor stands twice in task 3");
}

/// "1 after 2, 2 after 1: detail 1"
#[test]
fn number_5() {
    let cycle = tables(&[&[], &[2], &[1]]);
    let words = "the tasks form a cycle: 1 after 2 after 1";
    assert_says(refused_begin(cycle, 1, 4), 5, 1, words);
    let itself = tables(&[&[], &[], &[0, 2]]);
    assert_says(refused_begin(itself, 1, 4), 5, 2, "the tasks form a cycle: 2 after 2");
}

/// "At P 2, K 2 four roots are accepted and five refused".
#[test]
fn number_6() {
    let words = "too many roots for the rings: 5 tasks have no predecessors, and there is room for 4";
    assert_says(refused_begin(tables(&[&[][..]; 5]), 2, 2), 6, 5, words);
    begun(tables(&[&[][..]; 4]), 2, 2);
}

/// "P 2, worker 2"
#[test]
fn number_7() {
    let mut job = Job::from_text(DIAMOND, 2, 4).expect("a text");
    job.begin().expect("a graph");
    for number in [2, 3, 65_535, u32::MAX] {
        let worker = WorkerId::new(number);
        let words = format!("worker {number} doesn't exist: there are 2 workers");
        assert_says(refused(&mut job, |job| job.fetch(worker)), 7, number, &words);
        assert_says(refused(&mut job, |job| job.start(worker)), 7, number, &words);
        assert_says(refused(&mut job, |job| job.complete(worker)), 7, number, &words);
        assert_says(refused(&mut job, |job| job.release(worker)), 7, number, &words);
    }
    let mut single = begun(tables(&[&[]]), 1, 2);
    let refusal = refused(&mut single, |job| job.fetch(WorkerId::new(1)));
    assert_says(refusal, 7, 1, "worker 1 doesn't exist: there is 1 worker");
}

/// Before an accepted begin, every step of every worker.
#[test]
fn number_8() {
    let mut job = Job::from_text(DIAMOND, 2, 4).expect("a text");
    let words = "there was no accepted begin: begin first";
    for worker in [0, 1].map(WorkerId::new) {
        assert_says(refused(&mut job, |job| job.fetch(worker)), 8, 0, words);
        assert_says(refused(&mut job, |job| job.start(worker)), 8, 0, words);
        assert_says(refused(&mut job, |job| job.complete(worker)), 8, 0, words);
        assert_says(refused(&mut job, |job| job.release(worker)), 8, 0, words);
        assert_eq!(
            (job.phase(worker), job.held(worker), job.load(worker)),
            (None, None, None)
        );
    }
    assert_eq!((job.accepted(), job.record()), (0, [].as_slice()));
}

/// The eight pairs of phase and step that don't suit.
#[test]
fn number_9() {
    let worker = WorkerId::new(0);
    let mut job = begun(tables(&[&[], &[0]]), 1, 2);
    let idle = "the step doesn't suit the worker's phase: it is idle, which suits Release and Fetch";
    assert_says(refused(&mut job, |job| job.start(worker)), 9, 0, idle);
    assert_says(refused(&mut job, |job| job.complete(worker)), 9, 0, idle);
    job.fetch(worker).expect("a task waits");
    let fetched = "the step doesn't suit the worker's phase: it has fetched a task, which suits Start";
    assert_says(refused(&mut job, |job| job.fetch(worker)), 9, 1, fetched);
    assert_says(refused(&mut job, |job| job.complete(worker)), 9, 1, fetched);
    assert_says(refused(&mut job, |job| job.release(worker)), 9, 1, fetched);
    job.start(worker).expect("it is fetched");
    let running = "the step doesn't suit the worker's phase: it is running its task, which suits Complete";
    assert_says(refused(&mut job, |job| job.fetch(worker)), 9, 2, running);
    assert_says(refused(&mut job, |job| job.start(worker)), 9, 2, running);
    let refusal = refused(&mut job, |job| job.release(worker));
    assert_eq!(refusal, Refusal::WrongPhase { phase: Phase::Running });
    assert_says(refusal, 9, 2, running);
}

/// "P 2, one root, worker 1 fetches first"
#[test]
fn number_10() {
    let mut job = begun(tables(&[&[], &[0]]), 2, 4);
    let worker = WorkerId::new(1);
    let fetch = "nothing there to fetch: no task waits in the worker's rings";
    assert_says(refused(&mut job, |job| job.fetch(worker)), 10, 0, fetch);
    let release = "nothing there to release: no completed task of the worker has a successor left";
    assert_says(refused(&mut job, |job| job.release(worker)), 10, 0, release);
}

/// "P 1, K 2, edges 0→1, 0→2", which "gains an edge 0→3 and is refused at the third Release"; after a Fetch there is room.
#[test]
fn number_11() {
    let worker = WorkerId::new(0);
    let mut job = begun(tables(&[&[], &[0], &[0], &[0]]), 1, 2);
    execute(&mut job, worker);
    job.release(worker).expect("the ring is empty");
    job.release(worker).expect("the ring has a slot left");
    let words = "no room for task 3: all rings that the worker fills are full";
    assert_says(refused(&mut job, |job| job.release(worker)), 11, 3, words);
    execute(&mut job, worker);
    assert!(job.release(worker).is_ok());
}

/// "line "1 5 2 0""
#[test]
fn number_13() {
    let refusal = Job::from_text(b"2\n0 0 0\n1 5 2 0\n2 3 1 0\n3 0 2 1 2\n", 2, 4).unwrap_err();
    assert_says(refusal, 13, 3, "the text breaks the layout in line 3");
    // "a text that ends too early breaks it at its count of lines plus 1"
    let one = "n is 2, so 4 task lines have to follow, and there is 1 task line";
    for (early, line, words) in [
        ("", 1, "it has no line with n"),
        ("# nothing\n\n", 3, "it has no line with n"),
        ("2\n0 0 0\n", 3, one),
        ("2\n0 0 0", 3, one),
        ("2\r\n0 0 0\n\n", 4, one),
        (
            "0\n",
            2,
            "n is 0, so 2 task lines have to follow, and there are 0 task lines",
        ),
        (
            "# images\n 2\n\n0 0 0\r\n\t1 5 1 0\n",
            6,
            "n is 2, so 4 task lines have to follow, and there are 2 task lines",
        ),
    ] {
        let refusal = Tables::from_text(early.as_bytes()).unwrap_err();
        assert_says(refusal, 13, line, &format!("the text ends too early: {words}"));
    }
}

/// n is the number of tasks without the dummies; where they were counted, the text would be whole with the n that is named.
/// It needn't stand in the first line.
#[test]
fn number_13_by_a_wrong_n() {
    let tasks = "0 0 0\n1 5 1 0\n2 3 1 0\n3 0 2 1 2\n";
    let wrong = format!("# images\n4\n{tasks}");
    let refusal = Tables::from_text(wrong.as_bytes()).unwrap_err();
    let words =
        "the text ends too early: n is 4, so 6 task lines have to follow, and there are 4 task lines; with n 2 it \
                 would be whole";
    assert_eq!(
        refusal.advice(),
        "correct the line with n, or add the task lines that are missing."
    );
    assert_says(refusal, 13, 7, words);
    assert!(Tables::from_text(format!("2\n{tasks}").as_bytes()).is_ok());

    // a task that takes time isn't the last one: with no other n the text would be whole
    let open = Tables::from_text(b"4\n0 0 0\n1 5 1 0\n").unwrap_err();
    assert!(!open.to_string().contains("whole"));
    for n in 0..6 {
        assert!(Tables::from_text(format!("{n}\n0 0 0\n1 5 1 0\n").as_bytes()).is_err());
    }
    assert_eq!(
        open.advice(),
        "add the task lines that are missing. If n is wrong, correct it first."
    );
}

/// Saving is refused as the check is, in its order.
#[test]
fn saving_meets_what_the_check_meets() {
    let wrong = [
        sized(1_025, 0, 0),
        sized(2, 8_193, 0),
        sized(3, 0, 65_536),
        Tables {
            pred_starts: vec![0; 2],
            ..tables(&[&[], &[]])
        },
        tables(&[&[], &[2]]),
        Tables {
            pred_starts: vec![0; 3],
            ..tables(&[&[], &[0]])
        },
        tables(&[&[], &[], &[], &[1, 1]]),
        tables(&[&[], &[2], &[1]]),
        tables(&[&[0]]),
    ];
    let numbers = wrong.map(|tables| {
        let refusal = tables.to_text().unwrap_err();
        assert_eq!(tables.check(), Err(refusal.clone()));
        refusal.number()
    });
    assert_eq!(numbers, [2, 2, 2, 1, 3, 3, 4, 5, 5]);
}

/// "when N is under 2, task 0 has weight or predecessors, or the last task has weight": the first of these is named.
#[test]
fn number_14() {
    let of = |weights: &[u32], lists: &[&[u32]]| Tables {
        weights: weights.to_vec(),
        ..tables(lists)
    };
    let refused = |tables: Tables, lack: Lack, why: &str| {
        let refusal = tables.to_text().unwrap_err();
        assert!(matches!(refusal, Refusal::NoDummies { lack: found, .. } if found == lack));
        assert_says(refusal, 14, 0, &format!("the tables lack a text's dummies: {why}"));
    };
    let none = "there are 0 tasks, and a text has at least 2";
    refused(Tables::default(), Lack::Tasks { tasks: 0 }, none);
    let one = "there is 1 task, and a text has at least 2";
    refused(of(&[0], &[&[]]), Lack::Tasks { tasks: 1 }, one);
    refused(of(&[7], &[&[]]), Lack::Tasks { tasks: 1 }, one);
    let weight = Lack::FirstWeight { weight: 65_535 };
    refused(of(&[65_535, 0], &[&[], &[0]]), weight, "task 0 has weight 65535");
    // also where there is more
    refused(of(&[65_535, 9], &[&[1], &[]]), weight, "task 0 has weight 65535");
    let one = Lack::FirstPredecessors { count: 1 };
    refused(of(&[0, 9], &[&[1], &[]]), one, "task 0 has 1 predecessor");
    let two = Lack::FirstPredecessors { count: 2 };
    refused(of(&[0, 9, 0], &[&[2, 1], &[], &[1]]), two, "task 0 has 2 predecessors");
    let last = Lack::LastWeight {
        task: TaskId::new(2),
        weight: 1,
    };
    refused(
        of(&[0, 9, 1], &[&[], &[0], &[1]]),
        last,
        "task 2, the last one, has weight 1",
    );
    // what the refusal advises
    let between = Tables::from_edges([0, 1, 1, 0], [(1, 2)]);
    assert_eq!(
        between.to_text().as_deref(),
        Ok(&b"2\n0 0 0\n1 1 0\n2 1 1 1\n3 0 0\n"[..])
    );
}

/// A refusal can be handed on as any other error.
#[test]
fn a_refusal_is_an_error() {
    fn begin() -> Result<(), Box<dyn std::error::Error>> {
        Job::from_text(b"0\n0 0 0\n1 0 0\n", 0, 2)?.begin()?;
        Ok(())
    }
    let words = "the number of workers, 0, is beyond its limit: 1 to 16";
    assert_eq!(begin().unwrap_err().to_string(), words);
}
