//! The stored files of the program `run_trials` are what the generator and the model write, and they try what they should.

mod common;

use common::assert_stored;
use engine_model::memory::List;
use engine_model::script::{text, Command, Line, Play, Script, Sizes};
use engine_model::scripts::{self, SLOTS, WORKERS};

/// What the files may have.
const INPUT: usize = 262_144;
const OUTPUT: usize = 524_288;
/// What the program has room for: the numbers of a line, the lent lists that it fills itself, the steps of a case.
const NUMBERS: usize = 24_576;
const ROOM: [(List, usize); 10] = [
    (List::SuccStarts, 1_032),
    (List::Succs, 8_200),
    (List::Degrees, 1_032),
    (List::Rings, 16_400),
    (List::Ends, 776),
    (List::Counters, 260),
    (List::Buffers, 16_400),
    (List::Executed, 2_056),
    (List::Run, 8),
    (List::Rows, 20),
];
const CALLS: usize = 4_194_304;

fn all_scripts() -> Vec<Script> {
    let script = |line| match line {
        Line::Run(script) => Some(script),
        Line::Note(_) | Line::Unreadable(_) => None,
    };
    scripts::all().into_iter().filter_map(script).collect()
}

#[test]
fn the_cases_are_the_generated_ones() {
    let made = text(&scripts::all(), Line::case);
    assert_stored("run_trials", "stdin", made.as_bytes());
    assert!(made.len() < INPUT);
}

#[test]
fn the_answers_are_the_model_s() {
    let made = text(&scripts::all(), Line::answer);
    assert_stored("run_trials", "stdout", made.as_bytes());
    assert!(made.len() < OUTPUT);
}

#[test]
fn the_program_has_room_for_every_case() {
    for line in scripts::all() {
        assert!(line.case().split(' ').count() <= NUMBERS);
    }
    for script in all_scripts() {
        assert!(script.fill <= i32::MAX as u32);
        assert!(ROOM.iter().all(|&(list, room)| script.memory.length(list) <= room));
        assert!(Play::of(&script).tried + script.commands.len() < CALLS);
        assert!(script.commands.iter().all(|&command| is_within_p(command)));
    }
}

/// The program goes from worker to worker by one addition and at most one subtraction of P.
fn is_within_p(command: Command) -> bool {
    let (Command::Every(Sizes { p, .. }, order) | Command::Turns(Sizes { p, .. }, order, ..)) = command else {
        return true;
    };
    (order.first as usize) < p && order.stride as usize <= p
}

/// Every answer that a begin or a step can give in a run is there often.
#[test]
fn every_number_is_tried() {
    let answers = text(&scripts::all(), Line::answer);
    let count = |words: &str| answers.lines().filter(|line| line.contains(words)).count();
    for (words, least) in [
        ("begin 0 0", 250),
        ("begin 1 0", 30),
        ("begin 2 0", 10),
        ("begin 3 ", 6),
        ("begin 4 3", 1),
        ("begin 5 1", 2),
        ("begin 6 ", 20),
        ("begin 6 1009", 1),
        (" refused 1 0", 100),
        (" refused 2 0", 100),
        (" refused 7 4294967295", 50),
        (" refused 9 0", 100),
        (" refused 9 1", 100),
        (" refused 9 2", 100),
        ("f refused 10 0", 100),
        ("r refused 10 0", 100),
        ("r refused 11 ", 30),
        (" left ", 1_000),
        (" to ", 1_000),
    ] {
        assert!(count(words) >= least, "{words}: {}", count(words));
    }
}

/// N, E, P and K of the cases whose last run is finished.
fn finished() -> Vec<[usize; 4]> {
    let sizes = |script: &Script| {
        let memory = Play::of(script).memory;
        let (n, e) = (memory.n(), memory.e());
        let done = memory.run == [n as u32, (3 * n + e) as u32];
        let Some(Command::Begin(Sizes { p, k })) = script.commands.first() else {
            return None;
        };
        done.then_some([n, e, *p, *k])
    };
    all_scripts().iter().filter_map(sizes).collect()
}

/// Runs are finished with every P and K, of graphs without a task and of the largest.
#[test]
fn runs_are_finished() {
    let finished = finished();
    assert!(finished.len() >= 200, "{}", finished.len());
    for p in WORKERS {
        for k in SLOTS {
            let runs = finished.iter().filter(|sizes| sizes[2..] == [p, k]).count();
            assert!(runs >= 5, "P {p}, K {k}: {runs}");
        }
    }
    assert!(finished.iter().any(|sizes| sizes[..2] == [0, 0]));
    assert!(finished.iter().any(|sizes| sizes[..2] == [1_024, 8_192]));
}
