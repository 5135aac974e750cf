//! No input makes a call panic: odd texts, tables and numbers, each held to the model where that says what is answered.

#[path = "common/odd.rs"]
mod odd;

use engine_model::frames::{texts, LENT};
use engine_model::model::Graph;
use engine_model::saves;
use engine_model::{reader, texts as generator, writer};
use odd::WORDS;
use yolluvek::limits::{MAX_TEXT, MAX_WRITTEN};
use yolluvek::{Job, Refusal, Side, Tables, TaskId, WorkerId};

const NUMBERS: [usize; 12] = [
    0,
    1,
    2,
    16,
    17,
    64,
    65,
    1 << 16,
    1 << 32,
    usize::MAX / 4,
    usize::MAX - 1,
    usize::MAX,
];

/// Every call and view, with odd numbers, before and after begin; a refusal prints.
fn make_every_call(job: &mut Job) {
    for _ in 0..2 {
        for number in WORDS {
            let (worker, task) = (WorkerId::new(number), TaskId::new(number));
            let answers = [
                job.release(worker).err(),
                job.fetch(worker).err(),
                job.start(worker).err(),
                job.complete(worker).err(),
                job.lookup(Side::Predecessors, task).err(),
                job.lookup(Side::Successors, task).err(),
            ];
            answers
                .iter()
                .flatten()
                .for_each(|refusal| assert!(refusal.number() <= 11));
            assert!(job.load(worker).is_some() == job.phase(worker).is_some());
            assert!(job.held(worker).is_none() || job.phase(worker).is_some());
            let beside = WorkerId::new(number / 2);
            assert_eq!(
                job.waiting(worker, beside).is_some(),
                job.counter(worker, beside).is_some()
            );
            assert!(job.pointer(worker).is_some() == job.buffer(worker).is_some());
            assert!(job.next_release(worker).is_none() || job.buffer(worker).is_some());
            assert!(job.degree(task).is_none() || job.weight(task).is_some());
            assert!(job.weight(task).is_some() == ((number as usize) < job.tasks()));
        }
        assert!(job.record().len() <= job.tasks());
        assert_eq!(job.task_ids().len(), job.tasks());
        assert!(job.worker_ids().len() == job.workers() || job.workers() > u32::MAX as usize);
        assert!(job.words() > job.tasks() + job.edges());
        assert!(job.tables().dot().ends_with("}\n"));
        save(job.tables());
        let refusal = job.begin().err();
        assert_eq!(refusal.is_none(), job.is_begun());
        refusal
            .iter()
            .for_each(|refusal| assert!(!refusal.to_string().is_empty()));
    }
}

/// The answer is the model's; what is read is what the model reads.
fn read(text: &[u8]) -> Result<Tables, Refusal> {
    let [mut weights, mut starts, mut preds] = LENT.map(|length| vec![0; length]);
    let expected = reader::read(text, &mut weights, &mut starts, &mut preds);
    let found = Tables::from_text(text);
    match (&found, expected) {
        (Ok(tables), Ok((n, e))) => {
            let (n, e) = (n as usize, e as usize);
            assert_eq!(tables.weights, weights[..n]);
            assert_eq!(tables.pred_starts, starts[..=n]);
            let numbers: Vec<u32> = tables.preds.iter().map(|task| task.number()).collect();
            assert_eq!(numbers, preds[..e]);
        }
        (Err(refusal), Err(expected)) => {
            assert_eq!((refusal.number(), refusal.detail()), (expected.number, expected.detail));
            assert!(matches!(
                refusal,
                Refusal::BeyondLimit { .. }
                    | Refusal::BadLayout { .. }
                    | Refusal::BadFirstLine { .. }
                    | Refusal::TextEnds { .. }
            ));
        }
        _ => panic!("{found:?}, where the model has {expected:?}"),
    }
    assert_end(text, &found);
    if let Err(Refusal::TextEnds {
        expected: Some(expected),
        found,
        whole,
        ..
    }) = found
    {
        assert_lines(text, expected, found, whole);
    }
    found
}

/// With the task lines that are missing the text is read; with the n that is named too, and else with no other.
fn assert_lines(text: &[u8], expected: usize, found: usize, whole: Option<usize>) {
    let open = text.last().is_some_and(|&mark| mark != b'\n');
    let missing: String = (found..expected).map(|task| format!("{task} 0 0\n")).collect();
    let longer = [text, if open { b"\n" } else { b"" }, missing.as_bytes()].concat();
    if longer.len() <= MAX_TEXT {
        let tables = Tables::from_text(&longer).expect("it is whole");
        assert_eq!(tables.weights.len(), expected);
    }
    for n in 0..expected - 2 {
        let mut lines: Vec<Vec<u8>> = text.split(|&mark| mark == b'\n').map(<[u8]>::to_vec).collect();
        let first = lines.iter_mut().find(|line| {
            let mark = line.iter().find(|mark| !b" \t\r".contains(mark));
            mark.is_some_and(|&mark| mark != b'#')
        });
        *first.expect("the line with n") = n.to_string().into_bytes();
        let read = Tables::from_text(&lines.join(&b'\n')).is_ok();
        assert_eq!(read, whole == Some(n), "{n}");
    }
}

/// The answer is the model's; what is saved is what the model saves, and is read back to the same tables.
fn save(tables: &Tables) {
    let Tables {
        weights, pred_starts, ..
    } = tables;
    let preds: Vec<u32> = tables.preds.iter().map(|task| task.number()).collect();
    let mut text = vec![0; MAX_WRITTEN];
    let expected = writer::write(weights, pred_starts, &preds, &mut text);
    match (tables.to_text(), expected) {
        (Ok(found), Ok(used)) => {
            assert_eq!(found, text[..used as usize]);
            assert_eq!(Tables::from_text(&found).as_ref(), Ok(tables));
        }
        (Err(refusal), Err(expected)) => {
            assert_eq!((refusal.number(), refusal.detail()), (expected.number, expected.detail));
            assert_ne!(refusal.to_string(), "the tables lack a text's dummies");
        }
        (found, expected) => panic!("{found:?}, where the model has {expected:?}"),
    }
}

/// Sound graphs, damaged ones, and the longest text that there is.
#[test]
fn drawn_tables() {
    let graphs = (50_000..51_000).map(saves::drawn).chain(saves::limits());
    for Graph { weights, preds } in graphs {
        save(&Tables {
            weights,
            pred_starts: preds.starts,
            preds: preds.words.into_iter().map(TaskId::new).collect(),
        });
    }
}

/// Further blank lines move the refusal exactly if the text ends too early.
fn assert_end(text: &[u8], found: &Result<Tables, Refusal>) {
    let longer = [text, b" \n \n"].concat();
    // the first of the two ends an open line; its space keeps a CR there from ending it too
    let open = text.last().is_some_and(|&mark| mark != b'\n');
    let further = if open { 1 } else { 2 };
    let expected = match found {
        _ if longer.len() > MAX_TEXT => return,
        Err(Refusal::TextEnds {
            line,
            expected,
            found,
            whole,
        }) => Err(Refusal::TextEnds {
            line: line + further,
            expected: *expected,
            found: *found,
            whole: *whole,
        }),
        found => found.clone(),
    };
    assert_eq!(Tables::from_text(&longer), expected);
}

#[test]
fn odd_texts() {
    let long = vec![b'#'; 10_000_000];
    let zeros = vec![0; 65_536];
    let nines = [b'9'; 400];
    let odd: [&[u8]; 9] = [b"", b"\0", b"\n\n\n", b"\r", b"65535\n", b"-1\n", &nines, &zeros, &long];
    for text in odd {
        assert!(read(text).is_err());
    }
}

#[test]
fn stored_and_further_texts() {
    let frames = generator::all();
    let stored = texts(&frames).map(|trial| trial.text.clone());
    let further = generator::further(500, 3_000).into_iter().map(|trial| trial.text);
    let mut accepted = 0;
    for (place, text) in stored.chain(further).enumerate() {
        let Ok(tables) = read(&text) else { continue };
        accepted += 1;
        let number = |by: usize| NUMBERS[(place / by) % NUMBERS.len()];
        make_every_call(&mut Job::from_tables(tables.clone(), number(1), number(5)));
        make_every_call(&mut Job::from_tables(tables, 2, 4));
    }
    assert!(accepted >= 500, "{accepted} texts are accepted");
}

/// Few words in all places, lists of every short length, every pair of numbers.
#[test]
fn odd_tables() {
    for (place, tables) in odd::tables() {
        let (workers, slots) = (NUMBERS[place % NUMBERS.len()], NUMBERS[place / 7 % NUMBERS.len()]);
        let judged = tables.check();
        let mut job = Job::from_tables(tables, workers, slots);
        make_every_call(&mut job);
        assert!(judged.is_ok() || !job.is_begun());
    }
}

/// What is beyond a limit costs no memory and no time, however far beyond.
#[test]
fn large_tables() {
    for (tasks, starts, preds) in [
        (3_000_000, 3_000_001, 0),
        (0, 1, 3_000_000),
        (1, 3_000_000, 1),
        (1_025, 0, 8_193),
    ] {
        let tables = Tables {
            weights: vec![u32::MAX; tasks],
            pred_starts: vec![u32::MAX; starts],
            preds: vec![TaskId::new(u32::MAX); preds],
        };
        assert!(tables.check().is_err());
        for number in NUMBERS {
            let mut job = Job::from_tables(tables.clone(), number, number);
            assert!(job.begin().is_err());
            assert!(job.fetch(WorkerId::new(0)).is_err());
        }
    }
}
