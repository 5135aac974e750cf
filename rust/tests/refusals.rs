//! docs/REFUSALS.md: the calls that it names for a number answer it, and no others do.

use engine_model::engine::{Engine, Limits, MODEL, PREVIEW};
use engine_model::exports::MAX_WRITTEN;
use engine_model::frames;
use engine_model::memory::{List, Memory, END_WORDS, ENTRIES, ROW_WORDS};
use engine_model::model::{check, link, Answer, Lent, Refusal};
use engine_model::pages;
use engine_model::reader;
use engine_model::refusals::{Caller, DAMAGES, ROWS};
use engine_model::runs::{next_case, next_case_within, Call, Case, Reply};
use engine_model::text::{GraphTrial, LookupTrial, Trial};
use engine_model::{loads, saves, texts, trials, windows, writer};
use std::collections::BTreeSet;

type Answered = BTreeSet<(u32, Caller)>;

fn note(answered: &mut Answered, caller: Caller, answer: Answer) {
    answered.extend(answer.err().map(|refusal| (refusal.number, caller)));
}

fn read_texts(answered: &mut Answered) {
    for trial in frames::texts(&texts::all()) {
        let [mut weights, mut starts, mut preds] = trial.lent.map(|length| vec![0; length]);
        let answer = reader::read(&trial.text, &mut weights, &mut starts, &mut preds);
        note(answered, Caller::Reader, answer.map(|_| ()));
    }
}

fn save_graphs(answered: &mut Answered) {
    for graph in (1..400).map(saves::drawn) {
        for length in [0, MAX_WRITTEN] {
            let (starts, preds) = (&graph.preds.starts, &graph.preds.words);
            let answer = writer::write(&graph.weights, starts, preds, &mut vec![0; length]);
            note(answered, Caller::Writer, answer.map(|_| ()));
        }
    }
}

fn sum_windows(answered: &mut Answered) {
    for lent in (0..400).map(loads::drawn) {
        for m in 0..4 {
            for length in [0, lent.words(m)] {
                let (weights, executed, run) = (&lent.weights, &lent.executed, &lent.run);
                let answer = windows::windows(weights, executed, run, &mut vec![0; length], lent.p, m);
                note(answered, Caller::Windows, answer);
            }
        }
    }
}

fn check_graphs_and_look_up(answered: &mut Answered) {
    for trial in trials::all() {
        match trial {
            Trial::Graph(GraphTrial { limits, graph, lent }) => {
                note(answered, Caller::Check, check(limits, &graph));
                let [starts, succs, degrees] = lent.map(|length| vec![0; length]);
                let mut lent = Lent { starts, succs, degrees };
                note(answered, Caller::Check, link(limits, &graph, &mut lent));
            }
            Trial::Lookup(LookupTrial { lookup, questions }) => {
                for (side, task) in questions {
                    note(answered, Caller::Lookup, lookup.judge(side, task));
                }
            }
            Trial::Note(_) | Trial::Unreadable(_) => {}
        }
    }
}

/// Begin and the steps of these cases.
fn run(engine: &Engine, answered: &mut Answered, cases: impl Iterator<Item = Case>) {
    for case in cases {
        let mut memory = case.memory;
        for call in case.calls {
            match (call, call.make(engine, &mut memory)) {
                (Call::Begin { .. }, Reply::Begun(answer)) => note(answered, Caller::Begin, answer),
                (Call::Step { step, .. }, Reply::Stepped(answer)) => note(answered, step.into(), answer.map(|_| ())),
                _ => {}
            }
        }
    }
}

#[test]
fn the_table_of_the_page_is_the_one_here() {
    assert_eq!(pages::refusals().check(), Ok(()));
}

/// Each number has its part of the page, under its meaning.
#[test]
fn every_number_is_explained() {
    let page = pages::refusals().stored().unwrap_or_else(|wrong| panic!("{wrong}"));
    let headings: Vec<&str> = page.lines().filter(|line| line.starts_with("## ")).collect();
    let expected: Vec<String> = ROWS
        .iter()
        .map(|row| format!("## {}: {}", row.number, row.meaning))
        .collect();
    assert_eq!(headings, expected);
}

#[test]
fn the_rows_are_numbered() {
    let numbers: Vec<u32> = ROWS.iter().map(|row| row.number).collect();
    assert_eq!(numbers, (1..=15).collect::<Vec<u32>>());
}

/// Each number by each call that is named for it, and by no other, in the stored texts and graphs, in drawn saves, windows and
/// runs.
#[test]
fn the_calls_named_for_a_number_are_those_that_answer_it() {
    let mut answered = Answered::new();
    read_texts(&mut answered);
    save_graphs(&mut answered);
    sum_windows(&mut answered);
    check_graphs_and_look_up(&mut answered);
    run(&MODEL, &mut answered, (0..1_600).map(next_case));
    let named = ROWS
        .iter()
        .flat_map(|row| row.callers.iter().map(|&caller| (row.number, caller)));
    assert_eq!(answered, named.collect());
}

/// What is named for begin and the steps is named for the preview's too.
#[test]
fn the_preview_answers_what_begin_and_the_steps_do() {
    let mut answered = Answered::new();
    let cases = (0..1_600).map(|seed| next_case_within(Limits::PREVIEW, seed));
    run(&PREVIEW, &mut answered, cases);
    let named = ROWS
        .iter()
        .flat_map(|row| row.callers.iter().map(|&caller| (row.number, caller)));
    let of_a_run = [
        Caller::Begin,
        Caller::Fetch,
        Caller::Start,
        Caller::Complete,
        Caller::Release,
    ];
    let named = named.filter(|(_, caller)| of_a_run.contains(caller));
    assert_eq!(answered, named.collect());
}

/// Each word of the page is read by the calls that are named for it, and by no other: in drawn honest runs, the words of each
/// state are damaged one after the other, and every step that would be accepted is tried, and load windows of one entry.
#[test]
fn damaged_words_are_met_by_the_calls_named_for_them() {
    let mut met = BTreeSet::new();
    for case in (20_000..20_100).map(next_case).filter(Case::is_honest) {
        let (p, k, mut memory) = (case.p, case.k, case.memory);
        if memory.n() > 12 || p > 3 || (MODEL.begin)(&mut memory, p, k).is_err() {
            continue;
        }
        for call in case.calls {
            let Call::Step { worker, step, .. } = call else {
                continue;
            };
            let before = memory.clone();
            if !call.make(&MODEL, &mut memory).is_accepted() {
                continue;
            }
            for (word, damaged) in every_word_damaged(&before) {
                let answer = (MODEL.step)(&mut damaged.clone(), p, k, worker, step);
                if answer.is_err() {
                    assert_eq!(answer, Err(Refusal { number: 8, detail: 0 }), "{word}");
                    met.insert((word, Caller::from(step)));
                }
                let mut results = vec![0; before.run[ENTRIES] as usize * (p + 1)];
                let Memory {
                    weights, executed, run, ..
                } = &damaged;
                let answer = windows::windows(weights, executed, run, &mut results, p, 1);
                // nothing is recorded yet
                if answer.is_err() && answer != (Err(Refusal { number: 15, detail: 0 })) {
                    assert_eq!(answer, Err(Refusal { number: 8, detail: 0 }), "{word}");
                    met.insert((word, Caller::Windows));
                }
            }
        }
    }
    let named = DAMAGES
        .iter()
        .flat_map(|each| each.read_by.iter().map(|&step| (each.word, step)));
    assert_eq!(met, named.collect());
}

/// The memory with each word that the page names damaged in turn, and the page's name for it.
fn every_word_damaged(memory: &Memory) -> Vec<(&'static str, Memory)> {
    let mut all = Vec::new();
    for each in &DAMAGES {
        for &(list, field) in each.places {
            let words = match list {
                List::Rows => memory.rows.len() * ROW_WORDS,
                _ => memory.length(list),
            };
            let places = match (list, field) {
                (List::Rows, Some(field)) => (field..words).step_by(ROW_WORDS),
                (List::Ends, Some(field)) => (field..words).step_by(END_WORDS),
                (List::Executed, Some(field)) => (field..words).step_by(2),
                (_, Some(place)) => (place..place + 1).step_by(1),
                (_, None) => (0..words).step_by(1),
            };
            for place in places {
                let mut damaged = memory.clone();
                // no word of these lists may be so large, and no counter so far below zero
                let word = if list == List::Counters {
                    i32::MIN as u32
                } else {
                    u32::MAX
                };
                damaged.replace(list, place, word);
                all.push((each.word, damaged));
            }
        }
    }
    all
}

/// Of the steps of memory that only the engine has written since an accepted begin, none is refused with 8 or 12.
#[test]
fn honest_runs_meet_neither_8_nor_12() {
    let mut answered = Answered::new();
    let begun = |case: &Case| {
        let Case { mut memory, p, k, .. } = case.clone();
        (MODEL.begin)(&mut memory, p, k).is_ok()
    };
    let mut cases = 0;
    let from_begin = |case: Case| {
        let first = case
            .calls
            .iter()
            .position(|&call| call == Call::Begin { p: case.p, k: case.k });
        let calls = case.calls[first.unwrap_or(0)..].to_vec();
        Case { calls, ..case }
    };
    let honest = (20_000..20_800).map(next_case).filter(Case::is_honest).filter(begun);
    run(&MODEL, &mut answered, honest.map(from_begin).inspect(|_| cases += 1));
    assert!(cases >= 200, "{cases} cases");
    assert!(answered.iter().any(|&(number, _)| number == 11));
    assert!(
        answered.iter().all(|&(number, _)| number != 8 && number != 12),
        "{answered:?}"
    );
}
