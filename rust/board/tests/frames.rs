//! What holds of every frame, along random lessons.

use yolluvek::{Job, Refusal, Tables};
use yolluvek_board::board::{Board, Flow, Open};
use yolluvek_board::keys::{named, Key};
use yolluvek_board::screen::{frame, COLUMNS, MIN_ROWS};

/// A generator of numbers; the same ones in every run.
struct Random(u64);

impl Random {
    fn below(&mut self, count: u64) -> u64 {
        self.0 = self
            .0
            .wrapping_mul(6_364_136_223_846_793_005)
            .wrapping_add(1_442_695_040_888_963_407);
        (self.0 >> 33) % count
    }
}

fn board(tables: Tables, workers: usize, slots: usize) -> Board {
    Board::begin("lesson.stg", Job::from_tables(tables, workers, slots)).expect("accepted")
}

/// Tasks in three layers: one, many, few; each waits for some of the layer before.
fn layered(random: &mut Random, many: u32) -> Tables {
    let few = 1 + many / 3;
    let weights: Vec<u32> = (0..1 + many + few).map(|_| random.below(65_536) as u32).collect();
    let mut edges: Vec<(u32, u32)> = (1..=many).map(|task| (0, task)).collect();
    for task in many + 1..=many + few {
        for before in 1..=many {
            if before % few == task % few || random.below(3) == 0 {
                edges.push((before, task));
            }
        }
    }
    Tables::from_edges(weights, edges)
}

fn press(board: &mut Board, keys: &str) {
    for key in named(keys).expect("names of keys") {
        assert_eq!(board.press(key), Flow::GoOn);
    }
}

fn refusal(board: &Board) -> Option<Refusal> {
    match board.open() {
        Open::Answer(answer) => answer.told.clone().err(),
        _ => None,
    }
}

fn looks_right(board: &Board) {
    for rows in [MIN_ROWS, 33, usize::MAX] {
        let frame = frame(board, rows);
        assert!(frame.lines().count() <= rows, "{frame}");
        for line in frame.lines() {
            assert!(line.chars().count() <= COLUMNS, "{line}");
            assert!(
                line.chars().all(|mark| mark == ' ' || mark.is_ascii_graphic()),
                "{line}"
            );
        }
    }
}

/// The mission's sentence, in every state of random lessons, for every lane there is and some that aren't.
#[test]
fn after_a_refusal_and_escape_the_board_looks_as_before() {
    let mut random = Random(1);
    let mut numbers = [0; 14];
    for (workers, slots, many) in [(1, 2, 5), (2, 4, 9), (3, 2, 14), (13, 2, 20), (16, 64, 30)] {
        let mut board = board(layered(&mut random, many), workers, slots);
        for _ in 0..400 {
            let before = board.clone();
            let lane = random.below(workers as u64 + 2);
            press(&mut board, &format!("F4 {lane} Enter"));
            looks_right(&board);
            if let Some(refusal) = refusal(&board) {
                numbers[refusal.number() as usize] += 1;
                press(&mut board, "Escape");
                assert_eq!(frame(&board, usize::MAX), frame(&before, usize::MAX));
                assert_eq!(board.job(), before.job());
            }
            // goes on with some step of some lane; a question is left by Escape now and then
            let lane = random.below(workers as u64);
            let answers = ["Escape", "0 Enter", "Down Down Enter", "7 Backspace 1 Enter"];
            press(&mut board, answers[random.below(4) as usize]);
            let keys = format!("Escape {lane} {}", ["F2", "F3", "F5"][random.below(3) as usize]);
            press(&mut board, &keys);
            press(&mut board, "Escape");
        }
    }
    assert!([7, 9, 10, 11].iter().all(|&number| numbers[number] > 0), "{numbers:?}");
}

/// Any keys: no panic, and every frame keeps its size.
#[test]
fn any_keys() {
    let mut random = Random(2);
    let keys: Vec<Key> =
        named("Up Down 0 1 2 9 F2 F3 F5 F4 F4 F6 F7 F8 F9 Enter Enter Escape Backspace").expect("names");
    for (workers, slots, many) in [(1, 3, 4), (2, 64, 120), (16, 2, 12), (16, 64, 200)] {
        let mut board = board(layered(&mut random, many), workers, slots);
        for turn in 0..3_000 {
            let key = keys[random.below(keys.len() as u64) as usize];
            assert_eq!(board.press(key), Flow::GoOn);
            if turn % 20 == 0 {
                looks_right(&board);
            }
        }
        for key in [Key::Quit, Key::Interrupt, Key::Function(10)] {
            assert_eq!(board.clone().press(key), Flow::Quit);
        }
    }
}

/// F8 after an accepted step gives every word back, whatever was refused in between.
#[test]
fn steps_back() {
    let mut random = Random(3);
    let mut board = board(layered(&mut random, 12), 3, 3);
    let begun = board.job().clone();
    let mut jobs = vec![begun.clone()];
    for _ in 0..600 {
        let lane = random.below(3);
        let step = ["F2", "F3", "F5", "F4 Enter 0 Enter"][random.below(4) as usize];
        press(&mut board, &format!("Escape {lane} {step} Escape"));
        if board.job() != jobs.last().expect("begin at least") {
            jobs.push(board.job().clone());
        }
    }
    assert_eq!(jobs.len(), board.job().accepted() + 1);
    assert!(jobs.len() > 50, "{}", jobs.len());
    while let Some(job) = jobs.pop() {
        assert_eq!(*board.job(), job);
        press(&mut board, "F8");
    }
    assert_eq!(*board.job(), begun);
    assert_eq!(*board.open(), Open::Back(None));
}
