//! The refused calls in short, for docs/REFUSALS.md: what each number means, and which calls can answer it; the limits of number
//! 2, the engine's and the preview's; and the damaged words of number 8, with the calls that read them.

use crate::engine::{Limits, MIN_SLOTS};
use crate::memory::{List, Step, ACCEPTED, COUNT, CURSOR, ENTRIES, HEAD, HELD, PHASE, POINTER, READ, TAIL, WRITE};
use crate::model::MAX_WEIGHT;
use crate::pages::{table, Block};

/// The calls that can be refused.
#[derive(Clone, Copy, Debug, PartialEq, Eq, PartialOrd, Ord)]
pub enum Caller {
    Reader,
    Writer,
    /// The graph check that begin makes, as a call of its own, with or without filling the successor table.
    Check,
    /// The lookup, through its judging call.
    Lookup,
    /// Begin and the steps, by the engine or by the preview.
    Begin,
    Fetch,
    Start,
    Complete,
    Release,
    Windows,
}

use Caller::{Begin, Check, Complete, Fetch, Lookup, Reader, Release, Start, Windows, Writer};

impl From<Step> for Caller {
    fn from(step: Step) -> Caller {
        match step {
            Step::Fetch => Fetch,
            Step::Start => Start,
            Step::Complete => Complete,
            Step::Release => Release,
        }
    }
}

/// A row of document 01's table in short, or one that joined it with document 02.
pub struct Row {
    pub number: u32,
    pub meaning: &'static str,
    pub detail: &'static str,
    pub callers: &'static [Caller],
}

const STEPS: &[Caller] = &[Fetch, Start, Complete, Release];
const STEPS_AND_WINDOWS: &[Caller] = &[Fetch, Start, Complete, Release, Windows];
const ALL: &[Caller] = &[
    Reader, Writer, Check, Lookup, Begin, Fetch, Start, Complete, Release, Windows,
];

/// "Order in begin: 2, 1, 3, 4, 5, 6. In a step: 2, 1, 7, phase word (8), 9; […] 8, 10, 11, 12 […]. In lookup: 2, 1, 3. In the
/// reader: 1, text length, then line by line 13, or after it in that line 2". The writer "checks as begin does up to cycles
/// first. Refused: 14, after 5, […]; a buffer too small is 1, last of all." Load windows: "15 […], after 2 and every length
/// check but that of the result words, which it precedes; last, […] 8, and entries over N are 8 before 15".
pub const ROWS: [Row; 15] = [
    row(
        1,
        "a lent list has the wrong length, or the writer's buffer is too small",
        "0",
        ALL,
    ),
    row(2, "a size, a weight or the text is beyond its limit", "0", ALL),
    row(
        3,
        "a bad start or task number in a table",
        "the smallest bad task, or N; lookup: the task",
        &[Check, Lookup, Begin, Writer],
    ),
    row(
        4,
        "a predecessor stands twice in one task",
        "the smallest such task",
        &[Check, Begin, Writer],
    ),
    row(
        5,
        "the tasks form a cycle",
        "the smallest task on a cycle",
        &[Check, Begin, Writer],
    ),
    row(6, "too many roots for the rings", "the number of roots", &[Begin]),
    row(7, "no such worker", "the number handed in", STEPS),
    row(8, "a damaged word in the lent memory", "0", STEPS_AND_WINDOWS),
    row(9, "the step doesn't suit the worker's phase", "the phase", STEPS),
    row(10, "nothing there to fetch or to release", "0", &[Fetch, Release]),
    row(11, "no room for the released task", "the task", &[Release]),
    row(12, "the record is full", "0", &[Complete]),
    row(13, "the text breaks the layout", "the line, from 1", &[Reader]),
    row(14, "the tables lack a text's dummies", "0", &[Writer]),
    row(
        15,
        "a load window has no entries, or more than are recorded",
        "0",
        &[Windows],
    ),
];

const fn row(number: u32, meaning: &'static str, detail: &'static str, callers: &'static [Caller]) -> Row {
    Row {
        number,
        meaning,
        detail,
        callers,
    }
}

/// Words of one range in the lent memory, and the calls that read them.
pub struct Damage {
    pub word: &'static str,
    pub damaged: &'static str,
    pub read_by: &'static [Caller],
    /// The lists; of the rows, the ends and the record, the places in a row, a ring's ends or an entry; of the run words, those in
    /// the list.
    pub places: &'static [(List, Option<usize>)],
}

/// "Damaged, for a word the rule reads". "From now on the weight leaves counter (i, i) at Complete": Fetch reads neither.
pub const DAMAGES: [Damage; 17] = [
    damage(
        "head or tail of a ring",
        "K or more",
        &[Fetch, Release],
        &[(List::Ends, Some(HEAD)), (List::Ends, Some(TAIL))],
    ),
    damage(
        "count of a ring",
        "over K, or head plus count doesn't lead to tail modulo K",
        &[Fetch, Release],
        &[(List::Ends, Some(COUNT))],
    ),
    damage("task in a ring", "N or more", &[Fetch], &[(List::Rings, None)]),
    damage("task in a hand", "N or more", &[Complete], &[(List::Rows, Some(HELD))]),
    damage(
        "task in a buffer; successor",
        "N or more",
        &[Release],
        &[(List::Buffers, None), (List::Succs, None)],
    ),
    damage("phase", "over 2", STEPS, &[(List::Rows, Some(PHASE))]),
    damage("ring pointer", "P or more", &[Fetch], &[(List::Rows, Some(POINTER))]),
    damage(
        "counter",
        "beyond ±1,073,741,824 (2^30)",
        &[Complete, Release],
        &[(List::Counters, None)],
    ),
    damage(
        "degree that is to be lowered",
        "0, or over N",
        &[Release],
        &[(List::Degrees, None)],
    ),
    damage(
        "read and write place of a buffer",
        "not read ≤ write ≤ N; write place N where a task has to join",
        &[Complete, Release],
        &[(List::Rows, Some(READ)), (List::Rows, Some(WRITE))],
    ),
    damage(
        "cursor",
        "not below the number of successors",
        &[Release],
        &[(List::Rows, Some(CURSOR))],
    ),
    damage(
        "successor starts of a task",
        "falling, or beyond E",
        &[Complete, Release],
        &[(List::SuccStarts, None)],
    ),
    damage(
        "weight",
        "over 65,535",
        &[Complete, Release, Windows],
        &[(List::Weights, None)],
    ),
    damage(
        "entries recorded",
        "over N",
        &[Complete, Windows],
        &[(List::Run, Some(ENTRIES))],
    ),
    damage("recorded task", "N or more", &[Windows], &[(List::Executed, Some(0))]),
    damage("recorded worker", "P or more", &[Windows], &[(List::Executed, Some(1))]),
    damage(
        "steps accepted",
        "3N + E or more",
        STEPS,
        &[(List::Run, Some(ACCEPTED))],
    ),
];

const fn damage(
    word: &'static str,
    damaged: &'static str,
    read_by: &'static [Caller],
    places: &'static [(List, Option<usize>)],
) -> Damage {
    Damage {
        word,
        damaged,
        read_by,
        places,
    }
}

/// What stands in docs/REFUSALS.md.
pub fn blocks() -> Vec<Block> {
    let head = ["No.", "Meaning", "Detail", "Answered by"].map(String::from);
    let rows: Vec<Vec<String>> = ROWS.iter().map(Row::cells).collect();
    let numbers = Block {
        name: "numbers",
        text: table(&head, &rows),
    };
    vec![numbers, limits(), damages()]
}

/// The damaged words, and which calls read them.
fn damages() -> Block {
    let head = ["word", "damaged if", "read by"].map(String::from);
    let cells = |each: &Damage| vec![String::from(each.word), String::from(each.damaged), named(each.read_by)];
    let rows: Vec<Vec<String>> = DAMAGES.iter().map(cells).collect();
    Block {
        name: "damaged",
        text: table(&head, &rows),
    }
}

/// What the engine takes, and what the preview takes.
fn limits() -> Block {
    let head = ["", "from", "engine to", "preview to"].map(String::from);
    let (engine, preview) = (Limits::ENGINE, Limits::PREVIEW);
    let weight = MAX_WEIGHT as usize;
    let rows = [
        ("N, the tasks", 0, engine.tasks(), preview.tasks()),
        ("E, the edges", 0, engine.edges(), preview.edges()),
        ("P, the workers", 1, engine.workers, preview.workers),
        ("K, the slots of a ring", MIN_SLOTS, engine.slots, preview.slots),
        ("a weight, at begin", 0, weight, weight),
    ];
    let cells = |(of, from, engine, preview): (&str, usize, usize, usize)| {
        let numbers = [from, engine, preview].map(grouped);
        [&[String::from(of)][..], &numbers].concat()
    };
    Block {
        name: "limits",
        text: table(&head, &rows.map(cells)),
    }
}

/// A number below a million with its comma: 1,024.
fn grouped(number: usize) -> String {
    match number {
        0..=999 => number.to_string(),
        _ => format!("{},{:03}", number / 1_000, number % 1_000),
    }
}

impl Row {
    fn cells(&self) -> Vec<String> {
        let number = self.number.to_string();
        let texts = [self.meaning, self.detail].map(String::from);
        [&[number][..], &texts, &[named(self.callers)]].concat()
    }
}

fn named(callers: &[Caller]) -> String {
    match callers {
        ALL => String::from("every call"),
        STEPS => String::from("every step"),
        STEPS_AND_WINDOWS => String::from("every step, load windows"),
        _ => callers
            .iter()
            .map(|caller| caller.name())
            .collect::<Vec<_>>()
            .join(", "),
    }
}

impl Caller {
    fn name(self) -> &'static str {
        match self {
            Reader => "reader",
            Writer => "writer",
            Check => "graph check",
            Lookup => "lookup",
            Begin => "begin",
            Fetch => "Fetch",
            Start => "Start",
            Complete => "Complete",
            Release => "Release",
            Windows => "load windows",
        }
    }
}
