//! The desk program of the model: document 01's example, the texts of `examples`, refusals, and drawn texts.

use engine_model::demand3::Edges;
use engine_model::desk::output;
use engine_model::draw::Draw;
use engine_model::memory::Memory;
use engine_model::model::Table;
use engine_model::runs::graphs::shaped_up_to;
use std::ffi::{OsStr, OsString};
use std::fs;
use std::path::Path;

/// The text prints these lines, each with its LF.
fn assert_prints(text: impl AsRef<[u8]>, lines: &[&str]) {
    let expected: String = lines.iter().map(|line| format!("{line}\n")).collect();
    assert_eq!(String::from_utf8(output(text.as_ref())), Ok(expected));
}

fn example(name: &str) -> Vec<u8> {
    let folder = Path::new(env!("CARGO_MANIFEST_DIR")).join("../examples");
    fs::read(folder.join(name)).unwrap_or_else(|error| panic!("{name}: {error}"))
}

/// "give in whole: `4 16`, `0 0`, `2 1`, `1 0`, `3 0`"
#[test]
fn the_diamond() {
    let lines = ["4 16", "0 0", "2 1", "1 0", "3 0"];
    assert_prints("2\n0 0 0\n1 5 1 0\n2 3 1 0\n3 0 2 1 2\n", &lines);
    assert_prints(example("diamond.stg"), &lines);
}

/// One task waits or is in a hand, and none at a Release: both sums are 0 then, so worker 0 takes all. 6 tasks and
/// 5 edges are 23 steps.
#[test]
fn a_chain() {
    let lines = ["6 23", "0 0", "1 0", "2 0", "3 0", "4 0", "5 0"];
    assert_prints(example("chain.stg"), &lines);
}

/// 9 roots, and room for P·K = 8.
#[test]
fn a_star() {
    assert_prints(example("star.stg"), &["refused 6 9"]);
}

/// The star's images behind task 0: 10 tasks and 16 edges are 46 steps. Worker 0 releases eight images, to 0, 1, 0, 1, 1, 0, 1, 0:
/// when it releases 3, worker 1 has 2 in its hand, so that the sums are 3 and 3; when it releases 5, worker 1 has completed 2; when
/// it releases 8, worker 0 has 1, 3 and 6 waiting, and worker 1 has 5 in its hand or waiting beside 4 and 7.
#[test]
fn a_star_behind_one_task() {
    let lines = [
        "10 46", "0 0", "2 1", "4 1", "1 0", "5 1", "3 0", "7 1", "6 0", "8 0", "9 0",
    ];
    assert_prints(example("star_behind_one.stg"), &lines);
}

/// 16 tasks and 24 edges are 72 steps; the turns were worked out with queues of tasks and the workers' sums.
#[test]
fn a_map_sheet() {
    let lines = [
        "16 72", "0 0", "2 1", "1 0", "3 1", "5 0", "4 1", "6 0", "9 1", "10 0", "8 1", "7 0", "11 0", "13 1", "12 0",
        "14 0", "15 0",
    ];
    assert_prints(example("tiles.stg"), &lines);
}

/// Every text of the folder is one of these; the other files are programs in C.
#[test]
fn no_other_example() {
    let folder = Path::new(env!("CARGO_MANIFEST_DIR")).join("../examples");
    let entries = fs::read_dir(folder).expect("the folder is there");
    let names = entries.map(|entry| entry.expect("an entry").file_name());
    let is_text = |name: &OsString| Path::new(name).extension() != Some(OsStr::new("c"));
    let mut texts: Vec<_> = names.filter(is_text).collect();
    texts.sort();
    assert_eq!(
        texts,
        [
            "chain.stg",
            "diamond.stg",
            "star.stg",
            "star_behind_one.stg",
            "tiles.stg"
        ]
    );
}

/// Two dummies: root 0 goes to worker 0, root 1 to worker 1; both fetch, start and complete in turn.
#[test]
fn two_dummies() {
    assert_prints("0\n0 0 0\n1 0 0\n", &["2 6", "0 0", "1 1"]);
    assert_prints("0\n0 0 0\n1 0 1 0\n", &["2 7", "0 0", "1 0"]);
}

/// "A refusal by the reader or by begin prints one line alone".
#[test]
fn refusals() {
    assert_prints("", &["refused 13 1"]);
    assert_prints("2\n0 0 0\n1 5 2 0\n2 3 1 0\n3 0 2 1 2\n", &["refused 13 3"]);
    assert_prints("1023\n", &["refused 2 0"]);
    assert_prints("\n".repeat(65_537), &["refused 2 0"]);
    assert_prints("\n".repeat(65_536), &["refused 13 65537"]);
    assert_prints("1\n0 0 0\n1 5 1 3\n2 0 1 1\n", &["refused 3 1"]);
    assert_prints("1\n0 0 0\n1 5 1 0\n2 0 2 1 1\n", &["refused 4 2"]);
    assert_prints("2\n0 0 0\n1 5 1 2\n2 5 1 1\n3 0 1 2\n", &["refused 5 1"]);
    // eight roots fill both rings of K 4, and nine are refused
    let eight = "0 0 0\n1 0 0\n2 0 0\n3 0 0\n4 0 0\n5 0 0\n6 0 0\n7 0 0\n";
    assert_prints(format!("7\n{eight}8 0 0\n"), &["refused 6 9"]);
    assert_prints(
        format!("6\n{eight}"),
        &["8 24", "0 0", "1 1", "2 0", "3 1", "4 0", "5 1", "6 0", "7 1"],
    );
}

/// Each task's predecessors between two dummies: the first without an edge, the last after all others.
fn drawn_lists(draw: &mut Draw) -> Vec<Vec<u32>> {
    let inner = shaped_up_to(draw, 20);
    let last = (0..=inner.len() as u32).collect();
    let mut lists = vec![Vec::new()];
    lists.extend(
        inner
            .into_iter()
            .map(|list| list.into_iter().map(|task| task + 1).collect()),
    );
    lists.push(last);
    lists
}

/// The lists as a text, with drawn times.
fn spelt(draw: &mut Draw, lists: &[Vec<u32>]) -> String {
    let last = lists.len() - 1;
    let mut text = format!("{}\n", last - 1);
    for (task, list) in lists.iter().enumerate() {
        let time = if task == 0 || task == last {
            0
        } else {
            draw.between(0, 9)
        };
        let preds: String = list.iter().map(|pred| format!(" {pred}")).collect();
        text += &format!("{task} {time} {}{preds}\n", list.len());
    }
    text
}

/// "It prints N and the accepted word, then per entry task and worker": N and 3N+E, and an order that the graph allows.
#[test]
fn drawn_texts() {
    let mut draw = Draw::new(1);
    let mut refusals = 0;
    for _ in 0..400 {
        let lists = drawn_lists(&mut draw);
        let printed = String::from_utf8(output(spelt(&mut draw, &lists).as_bytes())).expect("text");
        let roots = lists.iter().filter(|list| list.is_empty()).count();
        // "The roots' limit becomes P·K"
        if roots > 8 {
            assert_eq!(printed, format!("refused 6 {roots}\n"));
            refusals += 1;
            continue;
        }
        let rows: Vec<Vec<u32>> = printed.lines().map(numbers).collect();
        let (n, e) = (lists.len(), lists.iter().map(Vec::len).sum::<usize>());
        assert_eq!(rows[0], [n as u32, (3 * n + e) as u32]);
        assert!(rows[1..].iter().all(|row| row.len() == 2 && row[1] < 2), "{printed}");
        let order: Vec<u32> = rows[1..].iter().map(|row| row[0]).collect();
        assert!(edges(&lists).allow(&order), "{printed}");
    }
    assert!((20..380).contains(&refusals), "{refusals} refusals");
}

fn numbers(line: &str) -> Vec<u32> {
    line.split(' ').map(|word| word.parse().expect("a number")).collect()
}

fn edges(lists: &[Vec<u32>]) -> Edges {
    let table = Table::of(lists);
    Edges::of(&Memory::sized(vec![0; lists.len()], table.starts, table.words, 1, 2, 0))
}
