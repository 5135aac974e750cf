//! Lessons from docs/RULE.md: where tasks go, what the panel says, the score, and what the screen shows of a lane.

use yolluvek::{Job, Tables};
use yolluvek_board::board::{Board, Flow, Open, Score};
use yolluvek_board::keys::named;
use yolluvek_board::screen::{answer_lines, frame};

fn board(weights: &[u32], edges: &[(u32, u32)], workers: usize, slots: usize) -> Board {
    let tables = Tables::from_edges(weights, edges.iter().copied());
    Board::begin("lesson", Job::from_tables(tables, workers, slots)).expect("accepted")
}

fn press(board: &mut Board, keys: &str) {
    for key in named(keys).expect("names of keys") {
        assert_eq!(board.press(key), Flow::GoOn);
    }
}

fn panel(board: &Board) -> String {
    let Open::Answer(answer) = board.open() else {
        panic!("no answer stands open");
    };
    format!("{}\n{}", answer.title(), answer_lines(answer).join("\n"))
}

/// The lines of a lane on the screen.
fn shown(board: &Board) -> Vec<String> {
    let frame = frame(board, usize::MAX);
    frame
        .lines()
        .skip(4)
        .take_while(|line| !line.is_empty())
        .map(str::to_owned)
        .collect()
}

/// "The target's ring is full": each answer is the table's "ring used", each reason its target and what was passed.
#[test]
fn the_targets_ring_is_full() {
    let edges: Vec<(u32, u32)> = (5..=10).map(|task| (0, task)).collect();
    let mut board = board(&[4, 7, 9, 1, 5, 1, 1, 1, 1, 1, 2], &edges, 3, 2);
    press(&mut board, "F2 F3 F5");
    press(&mut board, "F4 0 Enter 0 Enter");
    assert!(panel(&board).contains("Task 5 (weight 1) waits for lane 0 now.\n The least load was 1, of lane 0.\n"));
    for task in [6, 7] {
        press(&mut board, "F4 0 Enter 1 Enter");
        let told = format!(
            "Task {task} (weight 1) waits for lane 1 now.\n The least load was 2, of lane 0. Full, filled by 0: the ring of \
             lane 0.\n"
        );
        assert!(panel(&board).contains(&told), "{}", panel(&board));
    }
    press(&mut board, "F4 0 Enter 1 Enter");
    assert!(panel(&board).contains("Task 8 (weight 1) waits for lane 2 now.\n"));
    assert!(panel(&board).contains("of lane 0. Full, filled by 0: the rings of lanes 0, 1.\n"));
    assert_eq!(board.score(), Score { right: 3, asked: 4 });
    assert!(frame(&board, usize::MAX).contains("It went to lane 2, and not to lane 1: foreseen 3 of 4\n"));
    press(&mut board, "F4 0 Enter 2 Enter");
    assert!(panel(&board).contains("Task 9 (weight 1) waits for lane 2 now.\n"));
    // no task will be placed, so nothing is asked
    press(&mut board, "F4 0 Enter");
    assert!(panel(&board).starts_with("Release by lane 0: REFUSED 11, detail 10\n"));
    assert_eq!(board.score().asked, 5);
    // "Its pointer is at 0, so it takes task 8 from the ring filled by 0, and not task 2"
    press(&mut board, "2 F2");
    assert!(panel(&board).contains("Lane 2 has fetched task 8 (weight 1). Its weight stays in the lane's load."));
    press(&mut board, "F4 0 Enter 2 Enter");
    assert!(panel(&board).contains("Task 10 (weight 2) waits for lane 2 now.\n"));
    assert_eq!(board.score(), Score { right: 5, asked: 6 });
    let lanes = [
        "    0  idle        -        2         -    1  0: 3 5 full",
        "    1  idle        -       14         -    0  0: 6 7 full | 1: 1 4 full",
        ">   2  fetched     8       13         -    1  0: 9 10 full | 2: 2",
    ];
    press(&mut board, "Escape");
    assert_eq!(shown(&board), lanes);
}

/// "A lane with a long tile isn't empty": the task in its hand counts until it is completed.
#[test]
fn a_long_task() {
    let mut board = board(&[60, 1, 1], &[(1, 2)], 2, 4);
    press(&mut board, "F2 1 F2 F3 F5");
    assert!(panel(&board).contains("Its weight has left the lane's load.\n"));
    press(&mut board, "F4 1 Enter 1 Enter");
    assert!(panel(&board).contains("Task 2 (weight 1) waits for lane 1 now.\n The least load was 0, of lane 1.\n"));
    assert_eq!(board.score(), Score { right: 1, asked: 1 });
    press(&mut board, "Escape");
    let lanes = [
        "    0  fetched     0       60         -    1",
        ">   1  idle        -        1         -    0  1: 2",
    ];
    assert_eq!(shown(&board), lanes);
    press(&mut board, "0 F3 F5 Escape");
    let lanes = [
        ">   0  idle        -        0        60    1",
        "    1  idle        -        1         1    0  1: 2",
    ];
    assert_eq!(shown(&board), lanes);
}

/// "Ties": the lowest number.
#[test]
fn ties() {
    let mut board = board(&[2, 4, 4, 7, 1, 3, 2, 1], &[(0, 4), (0, 5), (0, 6), (0, 7)], 3, 4);
    press(&mut board, "F2 F3 F5");
    let reasons = [
        (1, "The least load was 4, of lane 1, the lowest number of a tie.\n"),
        (2, "The least load was 4, of lane 2.\n"),
        (1, "The least load was 5, of lane 1.\n"),
        (0, "The least load was 7, of lane 0, the lowest number of a tie.\n"),
    ];
    for (owner, reason) in reasons {
        press(&mut board, &format!("F4 0 Enter {owner} Enter"));
        assert!(panel(&board).contains(reason), "{}", panel(&board));
    }
    assert_eq!(board.score(), Score { right: 4, asked: 4 });
}

/// The diamond in the desk program's turns: nothing is asked where a degree is left, and the run finishes.
#[test]
fn the_diamond() {
    let mut board = board(&[0, 5, 3, 0], &[(0, 1), (0, 2), (1, 3), (2, 3)], 2, 4);
    press(&mut board, "F2 F3 F5");
    assert!(panel(&board).contains("Task 0 is recorded. It has 2 successors to release."));
    let lanes = [
        ">   0  idle        -        0         -    1",
        "       completed 0 | next successor: 1, weight 5, waits for 1 task",
        "    1  idle        -        0         -    0",
    ];
    assert_eq!(shown(&board), lanes);
    press(
        &mut board,
        "F4 Enter 0 Enter F4 Enter 1 Enter 1 F2 F3 F5 0 F2 F3 F5 F4 1 Enter",
    );
    assert!(panel(&board).contains("Task 3 still waits for 1 task. Nothing is placed."));
    press(&mut board, "F4 0 Enter 0 Enter F2 F3 F5 Escape");
    assert_eq!(board.score(), Score { right: 3, asked: 3 });
    let frame = frame(&board, usize::MAX);
    assert!(
        frame.contains("\naccepted 16 of 16   recorded 4 of 4   finished   foreseen 3 of 3\n"),
        "{frame}"
    );
    assert!(
        frame.contains("\nrecord   0 by 0   2 by 1   1 by 0   3 by 0\n"),
        "{frame}"
    );
}

/// The diamond's record is 0 by 0, 2 by 1, 1 by 0, 3 by 0: the last window of each size, which F6 and F7 change; at 1 and at N
/// it stays.
#[test]
fn load_windows() {
    let mut board = board(&[0, 5, 3, 0], &[(0, 1), (0, 2), (1, 3), (2, 3)], 2, 4);
    let line = |board: &Board, line: usize| frame(board, usize::MAX).lines().nth(line).expect("a line").to_owned();
    assert_eq!(line(&board, 2), "there is no load window: no task is recorded");
    press(&mut board, "F2 F3 F5 Escape");
    assert_eq!(
        line(&board, 2),
        "a load window has from 1 to 1 entries: so many are recorded"
    );
    press(
        &mut board,
        "F4 Enter 0 Enter F4 Enter 1 Enter 1 F2 F3 F5 0 F2 F3 F5 F4 1 Enter F4 0 Enter 0 Enter F2 F3 F5 Escape",
    );
    let windows = [
        ("F6 F6", 1, [0, 0], 0),
        ("F7", 2, [5, 0], 5),
        ("F7", 3, [5, 3], 2),
        ("F7 F7", 4, [5, 3], 2),
    ];
    for (keys, window, loads, spread) in windows {
        press(&mut board, keys);
        assert_eq!(board.window(), window);
        let told = format!("load window: last {window} of the record, spread {spread}");
        assert_eq!(line(&board, 2), told);
        let head = format!(" lane  phase    hand     load    last {window}  ptr  filler: waiting, oldest first");
        assert_eq!(line(&board, 3), head);
        let lanes = [
            format!(">   0  idle        -        0{:>10}    1", loads[0]),
            format!("    1  idle        -        0{:>10}    1", loads[1]),
        ];
        assert_eq!(shown(&board), lanes);
    }
    // a step back takes the last entry back, and the window's size stays
    press(&mut board, "F8 Escape");
    assert_eq!(
        line(&board, 2),
        "a load window has from 1 to 3 entries: so many are recorded"
    );
}

/// Enter leaves an answer open; a key of the board closes it and does its work.
#[test]
fn panels_and_dialogs() {
    let mut board = board(&[0, 0], &[(0, 1)], 13, 2);
    press(&mut board, "F4 12 Enter Enter");
    assert!(matches!(board.open(), Open::Answer(_)));
    press(&mut board, "F4");
    assert!(matches!(board.open(), Open::Assign(_)));
    press(&mut board, "F2 F8");
    assert!(matches!(board.open(), Open::Assign(_)), "the dialog has its own keys");
    press(&mut board, "Backspace Enter");
    assert!(matches!(board.open(), Open::Assign(_)), "there is no number to assign");
    press(&mut board, "Escape 1 2");
    assert_eq!(board.marked(), Some(12));
    press(&mut board, "Down 1 Up 3 9");
    assert_eq!(board.marked(), Some(9));
}

/// Of a long ring the oldest tasks are named, and the others counted.
#[test]
fn long_rings() {
    let edges: Vec<(u32, u32)> = (1..=70).map(|task| (0, task)).collect();
    let mut board = board(&[0; 71], &edges, 2, 64);
    press(&mut board, "F2 F3 F5");
    for _ in 0..70 {
        press(&mut board, "F4 Enter 0 Enter Escape");
    }
    let lanes = [
        ">   0  idle        -        0         -    1  0: 1 2 3 4 5 6 7 8 9 10 11 12",
        "                                              and 52 more full",
        "    1  idle        -        0         -    0  0: 65 66 67 68 69 70",
    ];
    assert_eq!(shown(&board), lanes);
    assert_eq!(board.score(), Score { right: 64, asked: 70 });
}
