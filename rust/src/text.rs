//! The lines of the trials: what the program reads for each case, and what it has to print.
//!
//! - `# words` is a note, and printed as it stands.
//! - `g` and the limits on N and E; the lengths of weights, starts and predecessors; the lengths of the lent successor
//!   starts, successors and degrees; then the words of the first three lists.
//! - `n` and the lengths of weights, predecessor starts, predecessors, successor starts and successors; their words;
//!   then the questions, each a side (0 predecessors, 1 successors) and a task.
//! - Any other line is answered `unreadable`.
//!
//! An answer is its number and detail, `0 0` if accepted. For `g` the line has the check's answer, the linking call's
//! and what the three lent lists hold then; for `n` an answer and the neighbours for each question.

use crate::model::{self, Answer, Graph, Lent, Limits, Lookup, Refusal, Side};
use std::fmt::Write;

/// Longer lists are shown by their length and hash.
const SHOWN: usize = 16;
/// Place i of a lent list holds this plus i before the call: no task, start or degree.
const PATTERN: u32 = 70_000;
/// The hash: a polynomial in this number modulo a prime below 2^32.
const FACTOR: u64 = 1_000_003;
const PRIME: u64 = 4_294_967_291;

/// One line of the trials.
#[derive(Clone, Debug)]
pub enum Trial {
    Note(String),
    /// A line that is no case.
    Unreadable(String),
    Graph(GraphTrial),
    Lookup(LookupTrial),
}

#[derive(Clone, Debug)]
pub struct GraphTrial {
    pub limits: Limits,
    pub graph: Graph,
    /// Lengths of the lent successor starts, successors and degrees.
    pub lent: [usize; 3],
}

impl GraphTrial {
    /// The graph under the engine's limits, with lent lists of the right lengths.
    pub fn of(graph: Graph) -> GraphTrial {
        let (n, e) = (graph.weights.len(), graph.preds.words.len());
        GraphTrial {
            limits: Limits::ENGINE,
            graph,
            lent: [n + 1, e, n],
        }
    }
}

#[derive(Clone, Debug)]
pub struct LookupTrial {
    pub lookup: Lookup,
    pub questions: Vec<(Side, u32)>,
}

impl Trial {
    /// The line that the program reads.
    pub fn case(&self) -> String {
        match self {
            Trial::Note(words) => format!("# {words}"),
            Trial::Unreadable(line) => line.clone(),
            Trial::Graph(trial) => graph_case(trial),
            Trial::Lookup(trial) => lookup_case(trial),
        }
    }

    /// The line that the program has to print.
    pub fn answer(&self) -> String {
        match self {
            Trial::Note(words) => format!("# {words}"),
            Trial::Unreadable(_) => String::from("unreadable"),
            Trial::Graph(trial) => graph_answer(trial),
            Trial::Lookup(trial) => lookup_answer(trial),
        }
    }
}

/// All the lines of one of the two files.
pub fn lines(trials: &[Trial], line: impl Fn(&Trial) -> String) -> String {
    trials.iter().map(|trial| line(trial) + "\n").collect()
}

fn graph_case(trial: &GraphTrial) -> String {
    let Graph { weights, preds } = &trial.graph;
    let [starts, succs, degrees] = trial.lent;
    let mut line = format!(
        "g {} {} {} {} {} {starts} {succs} {degrees}",
        trial.limits.tasks,
        trial.limits.edges,
        weights.len(),
        preds.starts.len(),
        preds.words.len(),
    );
    add_words(&mut line, weights);
    add_words(&mut line, &preds.starts);
    add_words(&mut line, &preds.words);
    line
}

fn lookup_case(trial: &LookupTrial) -> String {
    let lookup = &trial.lookup;
    let lists = [
        &lookup.weights,
        &lookup.preds.starts,
        &lookup.preds.words,
        &lookup.succs.starts,
        &lookup.succs.words,
    ];
    let mut line = String::from("n");
    add_words(&mut line, &lists.map(|list| list.len() as u32));
    lists.iter().for_each(|list| add_words(&mut line, list));
    for &(side, task) in &trial.questions {
        let side = match side {
            Side::Predecessors => 0,
            Side::Successors => 1,
        };
        add_words(&mut line, &[side, task]);
    }
    line
}

pub(crate) fn add_words(line: &mut String, words: &[u32]) {
    for word in words {
        write!(line, " {word}").expect("a String takes all");
    }
}

fn graph_answer(trial: &GraphTrial) -> String {
    let checked = model::check(trial.limits, &trial.graph);
    let [starts, succs, degrees] = trial.lent.map(pattern);
    let mut lent = Lent { starts, succs, degrees };
    let linked = model::link(trial.limits, &trial.graph, &mut lent);
    format!(
        "check {} | link {} | {} | {} | {}",
        shown_answer(checked),
        shown_answer(linked),
        shown_lent(&lent.starts),
        shown_lent(&lent.succs),
        shown_lent(&lent.degrees),
    )
}

fn lookup_answer(trial: &LookupTrial) -> String {
    let lookup = &trial.lookup;
    let answers = trial.questions.iter().map(|&(side, task)| {
        let answer = shown_answer(lookup.judge(side, task));
        format!("{answer} : {}", shown(lookup.neighbours(side, task)))
    });
    answers.collect::<Vec<_>>().join(" | ")
}

pub(crate) fn shown_answer(answer: Answer) -> String {
    let Refusal { number, detail } = answer.err().unwrap_or(Refusal { number: 0, detail: 0 });
    format!("{number} {detail}")
}

/// What a lent list holds before the call.
pub(crate) fn pattern(length: usize) -> Vec<u32> {
    (0..length as u32).map(|i| PATTERN + i).collect()
}

pub(crate) fn shown_lent(list: &[u32]) -> String {
    if !list.is_empty() && list == pattern(list.len()) {
        return String::from("kept");
    }
    shown(list)
}

pub(crate) fn shown(list: &[u32]) -> String {
    match list.len() {
        0 => String::from("-"),
        1..=SHOWN => list.iter().map(u32::to_string).collect::<Vec<_>>().join(" "),
        length => format!("{length} words {}", hash(list)),
    }
}

pub(crate) fn hash(list: &[u32]) -> u64 {
    list.iter()
        .fold(0, |sum, &word| (sum * FACTOR + u64::from(word) + 1) % PRIME)
}
