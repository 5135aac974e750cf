//! Graphs to be saved as a text, sound and damaged, and a writer beside the model: each graph is saved into buffers of several
//! lengths, the answers and every lent byte and word are compared, with guards around them, and the text is read back.

use crate::draw::Draw;
use crate::engine::Limits;
use crate::exports::MAX_WRITTEN;
use crate::frames::LENT;
use crate::model::{word, Graph, Refusal, Table, MAX_EDGES, MAX_TASKS};
use crate::runs::graphs;
use crate::{reader, writer};
use std::collections::BTreeMap;

pub type Write = fn(&[u32], &[u32], &[u32], &mut [u8]) -> Result<u32, Refusal>;
pub type Read = fn(&[u8], &mut [u32], &mut [u32], &mut [u32]) -> Result<(u32, u32), Refusal>;

/// A writer, and the reader that reads its texts back.
#[derive(Clone, Copy)]
pub struct Side {
    pub write: Write,
    pub read: Read,
}

pub const MODEL: Side = Side {
    write: writer::write,
    read: reader::read,
};

/// All that the writer may answer, 0 being acceptance.
pub const ANSWERS: [u32; 7] = [0, 1, 2, 3, 4, 5, 14];

/// The graph with a text's dummies in place: the first and the last task lose their weight, the first its predecessors, and a
/// graph of fewer than two tasks gets loose ones.
fn with_dummies(graph: Graph) -> Graph {
    let Graph { mut weights, preds } = graph;
    let parts = preds.starts.windows(2);
    let lists = parts.map(|part| preds.words[part[0] as usize..part[1] as usize].to_vec());
    let mut lists: Vec<Vec<u32>> = lists.collect();
    let tasks = weights.len().max(2);
    weights.resize(tasks, 0);
    lists.resize(tasks, Vec::new());
    (weights[0], weights[tasks - 1]) = (0, 0);
    lists[0].clear();
    Graph {
        weights,
        preds: Table::of(&lists),
    }
}

/// A graph that is saved, of any shape and up to `most` tasks; its last task may stand anywhere in it.
pub fn sound(draw: &mut Draw, most: usize) -> Graph {
    with_dummies(graphs::any(draw, most))
}

/// The same with as many tasks as there may be, and about as many edges.
pub fn largest(draw: &mut Draw) -> Graph {
    with_dummies(graphs::largest(draw, Limits::ENGINE))
}

/// What may be wrong with a graph.
#[derive(Clone, Copy, Debug)]
enum Defect {
    StartFalls,
    StartBeyond,
    FirstStart,
    LastStart,
    NoPredecessor,
    Twice,
    LoopOnOne,
    EdgeTurned,
    HeavyWeight,
    StartsLength,
    WeightsLength,
    PredecessorsLength,
    FirstWeight,
    FirstPredecessor,
    LastWeight,
    FewTasks,
}

const DEFECTS: [Defect; 16] = [
    Defect::StartFalls,
    Defect::StartBeyond,
    Defect::FirstStart,
    Defect::LastStart,
    Defect::NoPredecessor,
    Defect::Twice,
    Defect::LoopOnOne,
    Defect::EdgeTurned,
    Defect::HeavyWeight,
    Defect::StartsLength,
    Defect::WeightsLength,
    Defect::PredecessorsLength,
    Defect::FirstWeight,
    Defect::FirstPredecessor,
    Defect::LastWeight,
    Defect::FewTasks,
];

impl Defect {
    /// A defect that finds no place leaves the graph.
    fn apply(self, draw: &mut Draw, graph: &mut Graph) {
        let Graph { weights, preds } = graph;
        let Table { starts, words } = preds;
        let (n, e) = (weights.len(), words.len());
        let weight = draw.pick(&[1, 2, 65_535]);
        match self {
            Defect::StartFalls => put_any(draw, starts, |draw| word(draw.below(e + 1))),
            Defect::StartBeyond => put_any(draw, starts, |draw| draw.pick(&[word(e) + 1, 65_536, u32::MAX])),
            Defect::FirstStart => put(starts.first_mut(), draw.pick(&[1, 2, u32::MAX])),
            Defect::LastStart => {
                let wrong = draw.pick(&[word(e) + 1, word(e.saturating_sub(1))]);
                put(starts.last_mut(), wrong);
            }
            Defect::NoPredecessor => put_any(draw, words, |draw| draw.pick(&[word(n), word(n) + 1, 65_535, u32::MAX])),
            Defect::Twice => {
                // behind another predecessor of the same task
                let places: Vec<usize> = (1..e).filter(|&at| !starts.contains(&word(at))).collect();
                if !places.is_empty() {
                    let at = draw.pick(&places);
                    words[at] = words[at - 1];
                }
            }
            Defect::LoopOnOne => {
                let task = draw.below(n + 1);
                let at = starts.get(task).map_or(e, |&start| start as usize);
                put(words.get_mut(at), word(task));
            }
            Defect::EdgeTurned => put_any(draw, words, |draw| word(draw.below(n + 1))),
            Defect::HeavyWeight => put_any(draw, weights, |draw| draw.pick(&[65_536, 1 << 31, u32::MAX])),
            Defect::StartsLength => starts.resize(draw.pick(&[0, 1, n, n + 2, n + 9]), word(e)),
            Defect::WeightsLength => weights.resize(draw.pick(&[n.saturating_sub(1), n + 1]), 0),
            Defect::PredecessorsLength => words.resize(draw.pick(&[e.saturating_sub(1), e + 1]), 0),
            Defect::FirstWeight => put(weights.first_mut(), weight),
            Defect::FirstPredecessor if e > 0 => put(starts.get_mut(1), 1),
            Defect::FirstPredecessor => {}
            Defect::LastWeight => put(weights.last_mut(), weight),
            Defect::FewTasks => *graph = few(draw),
        }
    }
}

fn put(place: Option<&mut u32>, word: u32) {
    if let Some(place) = place {
        *place = word;
    }
}

/// A word of the list becomes another.
fn put_any(draw: &mut Draw, list: &mut [u32], word: impl Fn(&mut Draw) -> u32) {
    if !list.is_empty() {
        list[draw.below(list.len())] = word(draw);
    }
}

/// N 0 or 1, the one task perhaps after itself.
fn few(draw: &mut Draw) -> Graph {
    let lists = match draw.below(4) {
        0 => vec![],
        1 => vec![vec![0]],
        _ => vec![vec![]],
    };
    let mut graph = Graph::of_lists(&lists);
    put(graph.weights.first_mut(), draw.pick(&[0, 0, 5]));
    graph
}

/// A graph of a few tasks with one defect or some of them, so that the order of the numbers shows.
pub fn damaged(draw: &mut Draw) -> Graph {
    let mut graph = sound(draw, 20);
    for _ in 0..draw.pick(&[1, 1, 2, 3]) {
        draw.pick(&DEFECTS).apply(draw, &mut graph);
    }
    graph
}

/// Sound graphs and damaged ones in turn.
pub fn drawn(seed: u64) -> Graph {
    let draw = &mut Draw::new(seed);
    match seed % 400 {
        0 => largest(draw),
        case if case % 3 == 0 => sound(draw, 70),
        _ => damaged(draw),
    }
}

/// One of the 512 mixtures of nine defects, each of a later number in a smaller task: a cycle, a predecessor twice, predecessor
/// N, a wrong last start, the length of the starts, a heavy weight; a first weight, a first predecessor, a last weight.
pub fn mixture(bits: u32) -> Graph {
    let has = |defect: u32| bits >> defect & 1 == 1;
    let mut lists: Vec<Vec<u32>> = vec![vec![], vec![0], vec![0, 1], vec![2], vec![3, 0], vec![4], vec![5]];
    if has(0) {
        lists[1].push(2);
    }
    if has(1) {
        lists[3].extend([1, 2]);
    }
    if has(2) {
        lists[5].push(7);
    }
    if has(7) {
        // no task waits for task 0 then, so that this alone is no cycle
        lists = lists
            .into_iter()
            .map(|list| list.into_iter().filter(|&pred| pred != 0).collect())
            .collect();
        lists[0].push(3);
    }
    let mut graph = Graph {
        weights: vec![0, 65_535, 9, 10, 99, 100, 0],
        preds: Table::of(&lists),
    };
    if has(3) {
        graph.preds.words.push(0);
    }
    if has(4) {
        graph.preds.starts.push(0);
    }
    for (defect, task, weight) in [(5, 4, 65_536), (6, 0, 1), (8, 6, 65_535)] {
        if has(defect) {
            graph.weights[task] = weight;
        }
    }
    graph
}

/// N and E at their limits and beyond: the longest text, the most tasks without an edge, one task or one edge more.
pub fn limits() -> Vec<Graph> {
    let loose = |tasks: usize| Graph::of_lists(&vec![Vec::new(); tasks]);
    let mut more = longest();
    more.preds.words.push(0);
    vec![longest(), loose(MAX_TASKS), loose(MAX_TASKS + 1), more]
}

/// No text is longer than this graph's: the tasks 1 to 819 wait for ten tasks with four digits each, the first for twelve.
pub fn longest() -> Graph {
    let preds: Vec<u32> = (1_000..1_012).collect();
    let list = |task: u32| match task {
        1 => preds.clone(),
        2..=819 => preds[..10].to_vec(),
        _ => Vec::new(),
    };
    let lists: Vec<Vec<u32>> = (0..word(MAX_TASKS)).map(list).collect();
    let preds = Table::of(&lists);
    assert_eq!(preds.words.len(), MAX_EDGES);
    with_dummies(Graph {
        weights: vec![65_535; MAX_TASKS],
        preds,
    })
}

/// Elements before and after each lent list, which no call may touch; an odd number, so that a buffer lies anywhere.
const GUARDS: usize = 61;

/// A lent list between guards.
#[derive(Clone, Debug, PartialEq, Eq)]
struct Between<T>(Vec<T>);

impl<T: Copy> Between<T> {
    fn of(list: &[T], guard: T) -> Between<T> {
        let guards = [guard; GUARDS];
        Between([&guards, list, &guards].concat())
    }

    fn list(&self) -> &[T] {
        &self.0[GUARDS..self.0.len() - GUARDS]
    }

    fn list_mut(&mut self) -> &mut [T] {
        let end = self.0.len() - GUARDS;
        &mut self.0[GUARDS..end]
    }
}

/// What a buffer holds before the call: every byte in turn.
fn pattern(length: usize) -> Vec<u8> {
    (0..length).map(|place| place as u8).collect()
}

/// The answer, and the buffer then.
fn saved(write: Write, graph: &Graph, length: usize) -> (Result<u32, Refusal>, Vec<u8>) {
    let mut text = pattern(length);
    let answer = write(&graph.weights, &graph.preds.starts, &graph.preds.words, &mut text);
    (answer, text)
}

/// The lengths of the buffers: too short, just long enough, longer, and over 65,536 bytes.
fn lengths(model: &Result<u32, Refusal>, tasks: usize) -> Vec<usize> {
    match model.map(|used| used as usize) {
        Err(_) => vec![0, 40, 65_537],
        // of large graphs a few, for the model takes its time
        Ok(used) if tasks > 200 => vec![used - 1, used, 65_537],
        Ok(used) => vec![0, 1, used / 2, used - 1, used, used + 1, used + 99, MAX_WRITTEN, 65_537],
    }
}

fn numbered(answer: Result<u32, Refusal>) -> u32 {
    answer.err().map_or(0, |refusal| refusal.number)
}

/// Reads what was saved: N and E, and exactly the three tables; the other words stay.
fn read_back(read: Read, text: &[u8], graph: &Graph) {
    const FILL: u32 = 777_777;
    let mut lists = LENT.map(|length| vec![FILL; length]);
    let [weights, starts, preds] = &mut lists;
    let answer = read(text, weights, starts, preds);
    let sizes = [graph.weights.len(), graph.preds.words.len()].map(word);
    assert_eq!(answer, Ok((sizes[0], sizes[1])), "{graph:?}");
    let words = [&graph.weights, &graph.preds.starts, &graph.preds.words];
    for ((list, words), length) in lists.iter().zip(words).zip(LENT) {
        let expected: Vec<u32> = words
            .iter()
            .copied()
            .chain(std::iter::repeat(FILL))
            .take(length)
            .collect();
        assert!(*list == expected, "other tables are read back: {graph:?}");
    }
}

/// How often each number was answered.
pub type Counts = BTreeMap<u32, usize>;

/// Saves the graph beside the model, into several buffers and between guards of two kinds; each answer is counted.
pub fn compare(graph: &Graph, side: &Side, counts: &mut Counts) {
    let (model, _) = saved(MODEL.write, graph, MAX_WRITTEN);
    for length in lengths(&model, graph.weights.len()) {
        let (expected, buffer) = saved(MODEL.write, graph, length);
        for guard in [0, 0xfeed_be39] {
            let lists = [&graph.weights, &graph.preds.starts, &graph.preds.words].map(|list| Between::of(list, guard));
            let mut text = Between::of(&pattern(length), guard as u8);
            let (lent, [weights, starts, preds]) = (lists.clone(), &lists);
            let found = (side.write)(weights.list(), starts.list(), preds.list(), text.list_mut());
            assert_eq!(found, expected, "a buffer of {length} bytes: {graph:?}");
            assert!(lists == lent, "a table differs, a buffer of {length} bytes: {graph:?}");
            let expected = Between::of(&buffer, guard as u8);
            assert!(text == expected, "the buffer of {length} bytes differs: {graph:?}");
        }
        *counts.entry(numbered(expected)).or_default() += 1;
        if let Ok(used) = expected {
            let text = &buffer[..used as usize];
            read_back(side.read, text, graph);
            read_back(MODEL.read, text, graph);
        }
    }
}

/// The same of many graphs, in which each answer comes at least so often, and no other.
pub fn compare_all(graphs: impl Iterator<Item = Graph>, side: &Side, least: usize) {
    let mut counts = Counts::new();
    graphs.for_each(|graph| compare(&graph, side, &mut counts));
    let answers: Vec<u32> = counts.keys().copied().collect();
    assert_eq!(answers, ANSWERS, "{counts:?}");
    assert!(counts.values().all(|&count| count >= least), "{counts:?}");
}

/// The graph of a text, by this reader.
fn graph_of(read: Read, text: &[u8]) -> Option<Graph> {
    let [mut weights, mut starts, mut words] = LENT.map(|length| vec![0; length]);
    let (tasks, edges) = read(text, &mut weights, &mut starts, &mut words).ok()?;
    weights.truncate(tasks as usize);
    starts.truncate(tasks as usize + 1);
    words.truncate(edges as usize);
    Some(Graph {
        weights,
        preds: Table { starts, words },
    })
}

/// A text is read and saved beside the model; what was saved is read again to the same tables, and saved again it is the same
/// text. Answers the writer's number, or nothing where the text isn't read.
pub fn read_and_save(text: &[u8], side: &Side) -> Option<u32> {
    let graph = graph_of(side.read, text)?;
    compare(&graph, side, &mut Counts::new());
    let save = |graph: &Graph| {
        let (answer, text) = saved(side.write, graph, MAX_WRITTEN);
        answer.map(|used| text[..used as usize].to_vec())
    };
    let text = save(&graph);
    if let Ok(text) = &text {
        let again = graph_of(side.read, text).expect("a saved text is read");
        assert_eq!(again.weights, graph.weights);
        assert_eq!(again.preds.starts, graph.preds.starts);
        assert_eq!(again.preds.words, graph.preds.words);
        assert_eq!(save(&again).as_ref(), Ok(text));
    }
    Some(text.err().map_or(0, |refusal| refusal.number))
}
