//! Document 02's No. 1, the job saved as a task text: its sentences and edges, each expected value reasoned from the papers'
//! words; and drawn graphs, whose text has the form named and is read back to the same tables.

use engine_model::draw::Draw;
use engine_model::model::{Graph, Refusal, Table};
use engine_model::reader;
use engine_model::runs::graphs;
use engine_model::writer::write;

/// A byte that no text has.
const MARK: u8 = 0xa5;

/// Bytes of the longest text, added up below.
const LONGEST: usize = 53_978;

/// The graph of these weights and of each task's predecessors.
fn graph(weights: &[u32], lists: &[&[u32]]) -> Graph {
    let lists: Vec<Vec<u32>> = lists.iter().map(|list| list.to_vec()).collect();
    Graph {
        weights: weights.to_vec(),
        preds: Table::of(&lists),
    }
}

fn diamond() -> Graph {
    graph(&[0, 5, 3, 0], &[&[], &[0], &[0], &[1, 2]])
}

/// The answer and the buffer, every byte the mark before the call.
fn outcome(graph: &Graph, length: usize) -> (Result<u32, Refusal>, Vec<u8>) {
    let mut buffer = vec![MARK; length];
    let answer = write(&graph.weights, &graph.preds.starts, &graph.preds.words, &mut buffer);
    (answer, buffer)
}

/// The graph is refused so with a buffer of this length, and every mark stays.
#[track_caller]
fn assert_refused_in(graph: &Graph, length: usize, number: u32, detail: u32) {
    let (answer, buffer) = outcome(graph, length);
    assert_eq!(answer, Err(Refusal { number, detail }), "a buffer of {length} bytes");
    assert_eq!(buffer, vec![MARK; length]);
}

/// The graph is refused so whatever the buffer.
#[track_caller]
fn assert_refused(graph: &Graph, number: u32, detail: u32) {
    for length in [0, 1, 100, 65_536, 70_000] {
        assert_refused_in(graph, length, number, detail);
    }
}

/// The graph is saved as this text into any buffer that has room for it, bytes beyond stay, and one byte less is 1.
#[track_caller]
fn assert_saved(graph: &Graph, text: &str) {
    let used = text.len();
    for length in [used, used + 1, used + 100, 65_536, 65_537, 100_000] {
        let (answer, buffer) = outcome(graph, length);
        assert_eq!(answer, Ok(used as u32), "a buffer of {length} bytes");
        assert_eq!(
            buffer[..used].escape_ascii().to_string(),
            text.escape_default().to_string()
        );
        assert_eq!(buffer[used..], vec![MARK; length - used]);
    }
    for length in [0, 1, used / 2, used - 1] {
        assert_refused_in(graph, length, 1, 0);
    }
    assert_read_back(graph, text.as_bytes());
}

/// "Reading the result yields the same weights and predecessor tables."
#[track_caller]
fn assert_read_back(graph: &Graph, text: &[u8]) {
    let Graph { weights, preds } = graph;
    let fill = 777_777;
    let mut lists = [1_024, 1_025, 8_192].map(|length| vec![fill; length]);
    let [read_weights, read_starts, read_preds] = &mut lists;
    let answer = reader::read(text, read_weights, read_starts, read_preds);
    assert_eq!(answer, Ok((weights.len() as u32, preds.words.len() as u32)));
    for (list, words) in lists.iter().zip([weights, &preds.starts, &preds.words]) {
        assert_eq!(&list[..words.len()], words.as_slice());
        assert!(list[words.len()..].iter().all(|&word| word == fill));
    }
}

/// Document 01's "Input lines `2`, `0 0 0`, `1 5 1 0`, `2 3 1 0`, `3 0 2 1 2`": 2 + 6 + 8 + 8 + 10 bytes.
#[test]
fn the_diamond() {
    let text = "2\n0 0 0\n1 5 1 0\n2 3 1 0\n3 0 2 1 2\n";
    assert_eq!(outcome(&diamond(), 34).0, Ok(34));
    assert_refused_in(&diamond(), 33, 1, 0);
    assert_saved(&diamond(), text);
}

/// "N = n+2": the least job is the two dummies alone. No space stands before the LF of a line without predecessors.
#[test]
fn the_least_job() {
    assert_saved(&graph(&[0, 0], &[&[], &[]]), "0\n0 0 0\n1 0 0\n");
    assert_saved(&graph(&[0, 0], &[&[], &[0]]), "0\n0 0 0\n1 0 1 0\n");
}

/// "predecessors in table order": not rising.
#[test]
fn predecessors_keep_their_order() {
    assert_saved(
        &graph(&[0, 1, 2, 0], &[&[], &[], &[], &[2, 0, 1]]),
        "2\n0 0 0\n1 1 0\n2 2 0\n3 0 3 2 0 1\n",
    );
    assert_saved(
        &graph(&[0, 4, 4, 4, 0], &[&[], &[], &[1], &[2, 0, 1], &[]]),
        "3\n0 0 0\n1 4 0\n2 4 1 1\n3 4 3 2 0 1\n4 0 0\n",
    );
}

/// "no leading zeros", at every number of digits; 0 itself is one digit.
#[test]
fn digits() {
    let weights = [0, 0, 9, 10, 99, 100, 999, 1_000, 9_999, 10_000, 65_535, 0];
    let text = "10\n0 0 0\n1 0 0\n2 9 0\n3 10 0\n4 99 0\n5 100 0\n6 999 0\n7 1000 0\n8 9999 0\n9 10000 0\n\
                10 65535 0\n11 0 0\n";
    assert_saved(&graph(&weights, &[&[][..]; 12]), text);
    let before: Vec<u32> = (0..11).rev().collect();
    let mut lists = [&[][..]; 12];
    lists[11] = &before;
    assert_saved(
        &graph(&[0; 12], &lists),
        "10\n0 0 0\n1 0 0\n2 0 0\n3 0 0\n4 0 0\n5 0 0\n6 0 0\n7 0 0\n8 0 0\n9 0 0\n10 0 0\n\
         11 0 11 10 9 8 7 6 5 4 3 2 1 0\n",
    );
}

/// 14 asks nothing of the last task but that it has no weight: it may have successors, and predecessors or none.
#[test]
fn the_last_task_may_stand_anywhere() {
    assert_saved(&graph(&[0, 4, 0], &[&[], &[2], &[]]), "1\n0 0 0\n1 4 1 2\n2 0 0\n");
    assert_saved(&graph(&[0, 4, 0], &[&[], &[2], &[0]]), "1\n0 0 0\n1 4 1 2\n2 0 1 0\n");
    assert_saved(&graph(&[0, 4, 0], &[&[], &[], &[]]), "1\n0 0 0\n1 4 0\n2 0 0\n");
}

/// "14, after 5, when N is under 2, task 0 has weight or predecessors, or the last task has weight"; the buffer comes after.
#[test]
fn row_14() {
    assert_refused(&graph(&[], &[]), 14, 0);
    assert_refused(&graph(&[0], &[&[]]), 14, 0);
    assert_refused(&graph(&[7], &[&[]]), 14, 0);
    assert_refused(&graph(&[1, 5, 0], &[&[], &[0], &[1]]), 14, 0);
    assert_refused(&graph(&[0, 5, 0], &[&[1], &[], &[1]]), 14, 0);
    assert_refused(&graph(&[0, 5, 0], &[&[2], &[], &[]]), 14, 0);
    assert_refused(&graph(&[0, 5, 1], &[&[], &[0], &[1]]), 14, 0);
    assert_refused(&graph(&[65_535, 5, 65_535], &[&[1], &[2], &[]]), 14, 0);
}

/// "It checks as begin does up to cycles first": "Order in begin: 2, 1, 3, 4, 5".
#[test]
fn begin_s_check_comes_first() {
    // 5 before 14: a cycle in a graph without dummies
    assert_refused(&graph(&[1, 1, 1], &[&[1], &[0], &[]]), 5, 0);
    assert_refused(&graph(&[4], &[&[0]]), 5, 0);
    // 4 before 5, 3 before 4
    assert_refused(&graph(&[1, 1, 1], &[&[1], &[0], &[0, 0]]), 4, 2);
    assert_refused(&graph(&[1, 1, 1], &[&[1, 1], &[0], &[3]]), 3, 2);
    // 1 before 3, 2 before 1: starts too short, and a heavy weight
    let mut short = graph(&[1, 1, 1], &[&[1, 1], &[0], &[3]]);
    short.preds.starts.pop();
    assert_refused(&short, 1, 0);
    short.weights[2] = 65_536;
    assert_refused(&short, 2, 0);
    // N 0, E 1: the last start isn't E, and "N for a wrong first or last start alone"
    let mut none = graph(&[], &[]);
    none.preds.words.push(0);
    assert_refused(&none, 3, 0);
}

/// The same of the diamond, which lacks nothing else.
#[test]
fn the_diamond_refused() {
    let with = |change: fn(&mut Graph)| {
        let mut graph = diamond();
        change(&mut graph);
        graph
    };
    assert_refused(&with(|graph| graph.weights[1] = 65_536), 2, 0);
    assert_refused(&with(|graph| graph.preds.starts.push(4)), 1, 0);
    assert_refused(&with(|graph| graph.preds.starts.truncate(4)), 1, 0);
    assert_refused(&with(|graph| graph.preds.starts.clear()), 1, 0);
    assert_refused(&with(|graph| graph.preds.words[0] = 4), 3, 1);
    assert_refused(&with(|graph| graph.preds.starts[2] = 3), 3, 2);
    assert_refused(&with(|graph| graph.preds.starts[0] = 1), 3, 0);
    assert_refused(&with(|graph| graph.preds.words.push(0)), 3, 4);
    assert_refused(&with(|graph| graph.preds.words[3] = 1), 4, 3);
    assert_refused(&with(|graph| graph.preds.words[0] = 3), 5, 1);
    assert_refused(&with(|graph| graph.weights[0] = 1), 14, 0);
    assert_refused(&with(|graph| graph.weights[3] = 65_535), 14, 0);
}

/// "N at most 1,024", "E edges, at most 8,192": the limits themselves are saved.
#[test]
fn limits() {
    let loose = |n: usize| graph(&vec![0; n], &vec![&[][..]; n]);
    let lines: String = (0..1_024).map(|task| format!("{task} 0 0\n")).collect();
    assert_saved(&loose(1_024), &format!("1022\n{lines}"));
    assert_refused(&loose(1_025), 2, 0);
    assert_saved(&longest(), &longest_text());
    let mut more = longest();
    more.preds.words.push(0);
    assert_refused(&more, 2, 0);
}

/// N 1,024 and E 8,192: the tasks 1 to 819 wait for the tasks 1,000 to 1,009 each, the first of them for two more; every
/// weight between the dummies has five digits.
fn longest() -> Graph {
    let preds: Vec<u32> = (1_000..1_012).collect();
    let list = |task: u32| match task {
        1 => preds.clone(),
        2..=819 => preds[..10].to_vec(),
        _ => Vec::new(),
    };
    let lists: Vec<Vec<u32>> = (0..1_024).map(list).collect();
    let mut weights = vec![65_535; 1_024];
    (weights[0], weights[1_023]) = (0, 0);
    Graph {
        weights,
        preds: Table::of(&lists),
    }
}

/// Its lines.
fn longest_text() -> String {
    let ten = "1000 1001 1002 1003 1004 1005 1006 1007 1008 1009";
    let mut text = format!("1022\n0 0 0\n1 65535 12 {ten} 1010 1011\n");
    (2..=819).for_each(|task| text += &format!("{task} 65535 10 {ten}\n"));
    (820..=1_022).for_each(|task| text += &format!("{task} 65535 0\n"));
    text + "1023 0 0\n"
}

/// No text is longer: the first line has 5 bytes, the task numbers 10 + 2·90 + 3·900 + 4·24, the weights 5·1,022 + 2, the
/// counts 1,024 and one more for each ten predecessors, 819; each line has two spaces and an LF, and a predecessor at most
/// a space and four digits.
#[test]
fn the_longest_text() {
    let sum = 5 + (10 + 180 + 2_700 + 96) + 5_112 + (1_024 + 819) + 3 * 1_024 + 5 * 8_192;
    assert_eq!(sum, LONGEST);
    assert_eq!(longest_text().len(), LONGEST);
    assert_eq!(outcome(&longest(), LONGEST).0, Ok(LONGEST as u32));
    assert_refused_in(&longest(), LONGEST - 1, 1, 0);
}

/// A graph of any shape and size with its dummies; the last task may stand anywhere in it.
fn drawn(draw: &mut Draw, most: usize) -> Graph {
    let mut lists = graphs::shaped_up_to(draw, most);
    lists.resize(lists.len().max(2), Vec::new());
    lists[0].clear();
    let mut graph = graphs::weighed(draw, &lists);
    let last = graph.weights.len() - 1;
    (graph.weights[0], graph.weights[last]) = (0, 0);
    graph
}

/// "single spaces between fields, LF after every line, no leading zeros, no comments"; and as many lines as there are tasks,
/// and one.
fn assert_form(text: &[u8], tasks: usize) {
    let text = std::str::from_utf8(text).expect("digits, spaces and LF");
    let lines: Vec<&str> = text
        .strip_suffix('\n')
        .expect("LF after every line")
        .split('\n')
        .collect();
    assert_eq!(lines.len(), tasks + 1);
    for field in lines.iter().flat_map(|line| line.split(' ')) {
        assert!(
            !field.is_empty() && field.bytes().all(|byte| byte.is_ascii_digit()),
            "{field:?}"
        );
        assert!(field == "0" || !field.starts_with('0'), "{field:?}");
    }
}

/// Of one form and read back to the same tables, a text can't be another.
#[test]
fn drawn_graphs_are_read_back() {
    let draw = &mut Draw::new(800);
    let most = (0..2_000).map(|i| if i % 10 == 0 { 1_024 } else { 60 });
    let mut sizes = [usize::MAX, 0];
    for most in most {
        let graph = drawn(draw, most);
        let (answer, buffer) = outcome(&graph, 57_349);
        let used = answer.expect("it has its dummies and no cycle") as usize;
        assert!(used <= LONGEST);
        assert_form(&buffer[..used], graph.weights.len());
        assert_read_back(&graph, &buffer[..used]);
        assert!(buffer[used..].iter().all(|&byte| byte == MARK));
        assert_eq!(outcome(&graph, used), (Ok(used as u32), buffer[..used].to_vec()));
        assert_refused_in(&graph, used - 1, 1, 0);
        sizes = [sizes[0].min(used), sizes[1].max(used)];
    }
    assert!(sizes[0] <= 20 && sizes[1] >= 20_000, "{sizes:?}");
}
