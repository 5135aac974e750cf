//! What a refusal advises is what docs/REFUSALS.md advises an operator, under the same number and in the same case.

use engine_model::pages;
use std::collections::{BTreeMap, BTreeSet};
use yolluvek::limits::{self, Limit};
use yolluvek::{Fault, Job, Lack, Missing, Phase, Preview, Refusal, Side, Tables, TaskId, WorkerId};

/// The operator's line in each number's part of the page, broken lines joined.
fn operator_lines() -> BTreeMap<u32, String> {
    let page = pages::refusals().stored().unwrap_or_else(|wrong| panic!("{wrong}"));
    page.split("\n## ").skip(1).map(numbered_line).collect()
}

fn numbered_line(part: &str) -> (u32, String) {
    let (number, _) = part.split_once(':').expect("a heading has number and meaning");
    let items = part.split("\n- ").skip(1).map(|item| {
        let paragraph = item.split("\n\n").next().unwrap_or_default();
        paragraph.split_whitespace().collect::<Vec<_>>().join(" ")
    });
    let to_operator = |item: String| {
        let (whom, advice) = item.split_once(": ")?;
        whom.to_lowercase().contains("operator").then(|| String::from(advice))
    };
    let lines: Vec<String> = items.filter_map(to_operator).collect();
    assert_eq!(lines.len(), 1, "one line is for operators: {part}");
    (number.parse().expect("a number"), lines.concat())
}

/// The last cell of each row in a number's part of the page that says what to do in a case.
fn cells(number: u32) -> Vec<String> {
    let page = pages::refusals().stored().unwrap_or_else(|wrong| panic!("{wrong}"));
    let heading = format!("{number}:");
    let part = page.split("\n## ").find(|part| part.starts_with(&heading));
    let tables = part.expect("the number's part").split("| to do |\n|---|---|\n").skip(1);
    let rows = tables.flat_map(|table| table.lines().take_while(|line| line.starts_with('|')));
    let last = rows.map(|row| row.trim_end_matches(" |").rsplit(" | ").next().map(String::from));
    last.map(|cell| cell.expect("a cell")).collect()
}

/// A refusal of every kind whose advice needs no more than its number.
fn by_number() -> Vec<Refusal> {
    let task = TaskId::new(1);
    vec![
        Refusal::WrongLength,
        Refusal::BeyondLimit { limit: Limit::Unknown },
        Refusal::PredecessorTwice { task },
        Refusal::Cycle { task, path: vec![task] },
        Refusal::TooManyRoots { roots: 3, room: 2 },
        Refusal::NoSuchWorker {
            worker: WorkerId::new(2),
            workers: 2,
        },
        Refusal::DamagedWord,
        Refusal::WrongPhase { phase: Phase::Idle },
        Refusal::NothingToFetch,
        Refusal::NothingToRelease,
        Refusal::RecordFull,
        Refusal::NoDummies {
            lack: Lack::Unknown,
            missing: Missing::Unknown,
        },
        Refusal::BadWindow { entries: 4 },
    ]
}

/// Every limit that a preview has for itself.
fn preview_limits() -> [Limit; 4] {
    [
        Limit::PreviewTasks { tasks: 129 },
        Limit::PreviewEdges { edges: 513 },
        Limit::PreviewWorkers { workers: 5 },
        Limit::PreviewSlots { slots: 9 },
    ]
}

/// A refusal of every kind whose advice depends on more, in the order of the page's tables.
fn by_case() -> Vec<Refusal> {
    let (task, number) = (TaskId::new(1), TaskId::new(2));
    let (tasks, start, edges) = (2, 1, 3);
    let far = TaskId::new(limits::MAX_TASKS as u32);
    let edge = |from, to| Refusal::BadEdge {
        place: 0,
        from,
        to,
        tasks,
    };
    let limits = [
        Limit::Tasks { tasks: 1_025 },
        Limit::Edges { edges: 8_193 },
        Limit::TextEdges { line: 9 },
        Limit::TextTasks { tasks: 1_025 },
        Limit::Workers { workers: 17 },
        Limit::Slots { slots: 65 },
        Limit::Weight { task, weight: 65_536 },
        Limit::Text { bytes: 65_537 },
    ];
    let mut all: Vec<Refusal> = limits.map(|limit| Refusal::BeyondLimit { limit }).into();
    all.extend(preview_limits().map(|limit| Refusal::BeyondPreview { limit }));
    all.extend(preview_limits().map(|limit| Refusal::BeyondLimit { limit }));
    all.extend([
        Refusal::BadPart {
            task,
            fault: Fault::Predecessor { number, tasks },
        },
        Refusal::BadPart {
            task,
            fault: Fault::Predecessor { number: far, tasks },
        },
        edge(task, number),
        edge(task, far),
        edge(far, task),
        Refusal::BadEnds {
            tasks,
            fault: Fault::LastStart {
                start,
                edges,
                left: task,
            },
        },
        Refusal::BadPart {
            task,
            fault: Fault::Starts { from: 2, to: 1, edges },
        },
        Refusal::BadEnds {
            tasks,
            fault: Fault::FirstStart { start },
        },
        Refusal::NoSuchTask { task, tasks: 1 },
        Refusal::NoSuccessorsYet { task },
        Refusal::NotBegun,
        Refusal::DamagedWord,
        Refusal::NoRoom { task },
        Refusal::NoRoomForFirst { task },
        Refusal::RingFull {
            task,
            owner: WorkerId::new(0),
        },
    ]);
    all.push(Refusal::BadFirstLine { line: 1 });
    all.extend(
        [(Some(4), Some(0)), (Some(4), None), (None, None)].map(|(expected, whole)| Refusal::TextEnds {
            line: 4,
            expected,
            found: 2,
            whole,
        }),
    );
    let lack = Lack::Tasks { tasks: 1 };
    let missing = [Missing::Both, Missing::First, Missing::Last, Missing::TooMany];
    all.extend(missing.map(|missing| Refusal::NoDummies { lack, missing }));
    all
}

#[test]
fn the_page_s_words() {
    let lines = operator_lines();
    for refusal in by_number() {
        assert_eq!(Some(refusal.advice()), lines.get(&refusal.number()).map(String::as_str));
    }
    let numbers: BTreeSet<u32> = by_number().iter().chain(&by_case()).map(Refusal::number).collect();
    assert_eq!(numbers, (1..=15).collect());
    assert_eq!(lines.len(), 15);
    // the operator's line goes on with what to do where there is no such line
    let layout = Refusal::BadLayout { line: 3 };
    let told = lines[&13].strip_prefix(layout.advice());
    assert!(told.is_some_and(|rest| rest.starts_with(" If there is no such line, ")));
}

/// What depends on more than the number stands in the tables of its part, each cell for a refusal, in that order.
#[test]
fn the_page_s_cases() {
    for number in [2, 3, 8, 11, 13, 14] {
        let refusals = by_case();
        let of_number = refusals.iter().filter(|refusal| refusal.number() == number);
        let mut advised: Vec<&str> = of_number.map(Refusal::advice).collect();
        advised.dedup();
        assert_eq!(advised, cells(number), "{number}");
    }
}

/// The numbers that an advice names are the limits.
#[test]
fn the_numbers_are_the_limits() {
    let advice = |limit: Limit| Refusal::BeyondLimit { limit }.advice();
    let [workers, slots] = [Limit::Workers { workers: 0 }, Limit::Slots { slots: 0 }].map(advice);
    assert_eq!(workers, format!("choose from 1 to {} workers.", limits::MAX_WORKERS));
    assert_eq!(
        slots,
        format!("choose from {} to {} slots.", limits::MIN_SLOTS, limits::MAX_SLOTS)
    );
    let [_, _, workers, slots] = preview_limits().map(advice);
    let most = limits::PREVIEW_MAX_WORKERS;
    assert!(workers.starts_with(&format!("choose from 1 to {most} workers.")));
    let (least, most) = (limits::MIN_SLOTS, limits::PREVIEW_MAX_SLOTS);
    assert!(slots.starts_with(&format!("choose from {least} to {most} slots.")));
    let room = limits::PREVIEW_MAX_WORKERS * limits::PREVIEW_MAX_SLOTS;
    let roots = Refusal::TooManyRoots { roots: 40, room }.advice();
    assert!(roots.contains(&format!(
        "A preview has room for {room} roots at most, with {} workers and {} slots; the engine for all, with {} workers and \
         {} slots.",
        limits::PREVIEW_MAX_WORKERS,
        limits::PREVIEW_MAX_SLOTS,
        limits::MAX_WORKERS,
        limits::MAX_SLOTS
    )));
    assert!(limits::MAX_WORKERS * limits::MAX_SLOTS >= limits::MAX_TASKS);
}

/// What is beyond is what the advice speaks of: no workers and slots where a weight, N, E or the text is.
#[test]
fn advice_by_what_is_beyond() {
    let chain = |tasks: u32| Tables::from_edges(vec![1; tasks as usize], (1..tasks).map(|task| (task - 1, task)));
    let begun = |tables: Tables, workers, slots| Job::from_tables(tables, workers, slots).begin().unwrap_err();
    let large = "the job is too large, and has to be split.";
    assert_eq!(begun(chain(1_025), 2, 4).advice(), large);
    let edges = Tables {
        preds: vec![TaskId::new(0); 8_193],
        ..chain(2)
    };
    assert_eq!(begun(edges, 2, 4).advice(), large);
    let by_n = "correct the line with n if it is wrong; else the job is too large, and has to be split.";
    assert_eq!(Tables::from_text(b"1023\n").unwrap_err().advice(), by_n);
    let task = |task: u32| {
        format!(
            "{task} 0 1022 {}\n",
            (0..1_022).map(|pred| format!("{pred} ")).collect::<String>()
        )
    };
    let edges: String = (1..10).map(task).collect();
    let edges = Tables::from_text(format!("8\n0 0 0\n{edges}").as_bytes()).unwrap_err();
    assert_eq!((edges.number(), edges.advice()), (2, large));
    assert_eq!(begun(chain(2), 17, 4).advice(), "choose from 1 to 16 workers.");
    assert_eq!(begun(chain(2), 2, 65).advice(), "choose from 2 to 64 slots.");
    let heavy = begun(Tables::from_edges([1, 65_536], [(0, 1)]), 2, 4);
    assert!(heavy.to_string().contains("the weight of task 1, 65536,"));
    assert_eq!(heavy.advice(), "weigh all tasks in a larger unit, or split that task.");
    let long = [b"0\n0 0 0\n1 0 0\n".as_slice(), &[b' '; 65_536]].concat();
    assert!(Tables::from_text(&long)
        .unwrap_err()
        .advice()
        .starts_with("leave out comments"));
    // without these any job that keeps the limits has a text that does
    const { assert!(limits::MAX_WRITTEN <= limits::MAX_TEXT) };
}

/// Of a preview's job, that it keeps the engine's limits is said exactly where a job's begin isn't refused with 2.
#[test]
fn a_preview_that_the_engine_takes() {
    let mut said = [0; 2];
    for tasks in [4, 128, 129, 1_024, 1_025] {
        for (workers, slots, weight) in triples(&[0, 1, 4, 5, 16, 17], &[1, 2, 8, 9, 64, 65], &[1, 65_536]) {
            let tables = Tables::from_edges(vec![weight; tasks as usize], (1..tasks).map(|task| (task - 1, task)));
            let by_job = Job::from_tables(tables.clone(), workers, slots).begin();
            let Err(refusal) = Preview::from_tables(tables, workers, slots).begin() else {
                continue;
            };
            let taken = by_job.map_or_else(|refusal| refusal.number() != 2, |()| true);
            assert_eq!(matches!(refusal, Refusal::BeyondPreview { .. }), taken);
            assert_eq!(
                refusal.advice().contains("by the engine, whose limits it keeps"),
                taken,
                "{refusal}"
            );
            said[usize::from(taken)] += 1;
        }
    }
    assert!(said.iter().all(|&count| count > 20), "{said:?}");
}

/// Beyond the preview's N, and the engine's in P alone: with other workers the engine takes the whole job.
#[test]
fn a_preview_that_the_engine_takes_with_other_workers() {
    let tables = Tables::from_edges([1; 129], (1..129).map(|task| (task - 1, task)));
    let refusal = Preview::from_tables(tables.clone(), 17, 4).begin().unwrap_err();
    let advice =
        "split the job, or keep the engine's limits and begin it there. As it is, the engine doesn't take it either.";
    assert_eq!(refusal.advice(), advice);
    assert_eq!(Job::from_tables(tables.clone(), 17, 4).begin().unwrap_err().number(), 2);
    assert_eq!(Job::from_tables(tables, 16, 4).begin(), Ok(()));
}

/// All triples.
fn triples(workers: &[usize], slots: &[usize], weights: &[u32]) -> Vec<(usize, usize, u32)> {
    let pairs = workers.iter().flat_map(|&p| slots.iter().map(move |&k| (p, k)));
    pairs
        .flat_map(|(p, k)| weights.iter().map(move |&weight| (p, k, weight)))
        .collect()
}

/// 11, as the refused worker meets it that makes the room itself: with a Fetch alone its Release is refused with 9.
#[test]
fn the_refused_worker_makes_room() {
    let worker = WorkerId::new(0);
    let mut job = Job::from_tables(Tables::from_edges([1; 4], [(0, 1), (0, 2), (0, 3)]), 1, 2);
    assert_eq!(job.begin(), Ok(()));
    assert!(job.fetch(worker).is_ok() && job.start(worker).is_ok() && job.complete(worker).is_ok());
    assert!(job.release(worker).is_ok() && job.release(worker).is_ok());
    let refusal = job.release(worker).unwrap_err();
    assert_eq!(refusal, Refusal::NoRoom { task: TaskId::new(3) });
    let itself =
        "The refused worker can fetch itself, since a ring that it owns is full; it then starts and completes that \
                  task before it fetches or releases again.";
    assert!(refusal.advice().contains(itself));
    assert!(job.fetch(worker).is_ok());
    assert_eq!(job.release(worker).unwrap_err().number(), 9);
    assert_eq!(job.fetch(worker).unwrap_err().number(), 9);
    assert!(job.start(worker).is_ok() && job.complete(worker).is_ok() && job.release(worker).is_ok());
}

/// The tables with the dummies that the refusal asks for.
fn with_dummies(tables: &Tables, missing: Missing) -> Tables {
    let (first, last) = match missing {
        Missing::Both => (true, true),
        Missing::First => (true, false),
        Missing::Last => (false, true),
        _ => panic!("{missing:?}"),
    };
    let rise = u32::from(first);
    let parts = tables.pred_starts.windows(2).zip(0..);
    let edges = parts.flat_map(|(part, task)| {
        let preds = tables.preds[part[0] as usize..part[1] as usize].iter();
        preds.map(move |pred| (pred.number() + rise, task + rise))
    });
    let zeros = |count: bool| vec![0; usize::from(count)];
    Tables::from_edges([zeros(first), tables.weights.clone(), zeros(last)].concat(), edges)
}

/// 14: what is missing is what saving needs, and no more; where there is no room for it the job has to be split.
#[test]
fn dummies_added() {
    let chain = |tasks: u32, first: u32, last: u32| {
        let mut weights = vec![1; tasks as usize];
        weights.iter_mut().last().into_iter().for_each(|weight| *weight = last);
        weights.iter_mut().take(1).for_each(|weight| *weight = first);
        Tables::from_edges(weights, (1..tasks).map(|task| (task - 1, task)))
    };
    let back = Tables::from_edges([0, 0], [(1, 0)]);
    for (tables, said) in [
        (Tables::default(), Missing::Both),
        (chain(1, 0, 0), Missing::Last),
        (chain(1, 1, 1), Missing::Both),
        (chain(2, 1, 0), Missing::First),
        (back, Missing::First),
        (chain(5, 0, 1), Missing::Last),
        (chain(5, 1, 1), Missing::Both),
        (chain(1_022, 1, 1), Missing::Both),
        (chain(1_023, 1, 0), Missing::First),
        (chain(1_023, 0, 1), Missing::Last),
    ] {
        let Err(Refusal::NoDummies { missing, .. }) = tables.to_text() else {
            panic!("it is saved");
        };
        assert_eq!(missing, said);
        assert!(with_dummies(&tables, missing).to_text().is_ok());
    }
    for tables in [chain(1_023, 1, 1), chain(1_024, 1, 0), chain(1_024, 0, 1)] {
        let refusal = tables.to_text().unwrap_err();
        assert!(matches!(
            refusal,
            Refusal::NoDummies {
                missing: Missing::TooMany,
                ..
            }
        ));
        assert!(refusal.advice().starts_with("split the job: "));
    }
    assert!(chain(1_024, 0, 0).to_text().is_ok());
    // the number that the advice names
    assert_eq!(limits::MAX_TASKS - 2, 1_022);
}

/// The first line that counts has to be n alone; of another one the whole list is said.
#[test]
fn n_alone() {
    for (text, line) in [
        ("2 0\n0 0 0\n", 1),
        ("# images\n\nn\n", 3),
        ("123456", 1),
        ("65536\n", 1),
    ] {
        let refusal = Tables::from_text(text.as_bytes()).unwrap_err();
        assert_eq!(refusal, Refusal::BadFirstLine { line });
        assert!(refusal.to_string().ends_with(", which isn't n alone"));
    }
    let second = Tables::from_text(b"0\n0 0\n1 0 0\n").unwrap_err();
    assert_eq!(second, Refusal::BadLayout { line: 2 });
}

/// A predecessor that is no task: with all tasks up to it, and a larger n, the text is begun.
#[test]
fn tasks_added_up_to_a_predecessor() {
    let begun = |text: &str| Job::from_text(text.as_bytes(), 2, 4).and_then(|mut job| job.begin());
    let refusal = begun("1\n0 0 0\n1 5 1 4\n2 0 1 1\n").unwrap_err();
    assert!(refusal
        .advice()
        .starts_with("correct that predecessor, or add all tasks up to it; in a text, raise n too."));
    assert_eq!(begun("3\n0 0 0\n1 5 1 4\n2 0 1 1\n3 0 0\n4 0 0\n"), Ok(()));
    let far = begun("1\n0 0 0\n1 5 1 1024\n2 0 1 1\n").unwrap_err();
    assert!(far.advice().starts_with("correct that predecessor. "));
}

/// Before begin there is something better to do than to report it.
#[test]
fn begin_first() {
    let mut job = Job::from_tables(Tables::from_edges([1, 1], [(0, 1)]), 1, 2);
    assert_eq!(job.fetch(WorkerId::new(0)), Err(Refusal::NotBegun));
    let successors = job.lookup(Side::Successors, TaskId::new(0)).unwrap_err();
    assert_eq!(successors.advice(), "begin first.");
    let task = TaskId::new(1);
    for refusal in [Refusal::NotBegun, Refusal::NoSuccessorsYet { task }] {
        assert_eq!(refusal.advice(), "begin first.");
        assert!(refusal.to_string().ends_with(": begin first"));
    }
}

/// What the page doesn't have is reported, as the host's faults are.
#[test]
fn not_on_the_page() {
    for refusal in [
        Refusal::Unknown { number: 99, detail: 3 },
        Refusal::UnexpectedReply { words: [9, 0, 0, 0] },
    ] {
        assert_eq!(refusal.advice(), "report it.");
    }
}
