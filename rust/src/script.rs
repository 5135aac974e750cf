//! The lines of the program `run_trials`: what it reads for each case, and what it has to print.
//!
//! - `# words` is a note, and printed as it stands.
//! - `r` and the word that all lists but the first three hold at first; the lengths of the thirteen lent lists in document
//!   01's order; the words of the first three; then the commands, six numbers each.
//! - Any other line is answered `unreadable`.
//!
//! A command's first number says what is to be done; P, K, a worker, the stride from worker to worker and a number of steps
//! follow, 0 where they say nothing.

use crate::engine::{begin, step};
use crate::memory::{List, Memory, Outcome, Step};
use crate::model::{Answer, Refusal};
use crate::text::{add_words, hash, shown, shown_answer};

/// "each takes the first accepted of Release, Fetch, Start, Complete"
const TURN: [Step; 4] = [Step::Release, Step::Fetch, Step::Start, Step::Complete];
/// The steps against their order in a run, so that most are refused.
const BACKWARDS: [Step; 4] = [Step::Complete, Step::Start, Step::Fetch, Step::Release];
/// A longer record is shown by its length and hash.
const SHOWN: usize = 128;

/// One line of the trials.
#[derive(Clone, Debug)]
pub enum Line {
    Note(String),
    /// A line that is no case.
    Unreadable(String),
    Run(Script),
}

/// The lent lists, and what is done with them.
#[derive(Clone, Debug)]
pub struct Script {
    /// What every word outside weights and predecessor tables is at first.
    pub fill: u32,
    pub memory: Memory,
    pub commands: Vec<Command>,
}

/// Which answers of the steps are printed.
#[derive(Clone, Copy, Debug, PartialEq, Eq)]
pub enum Told {
    Accepted,
    All,
    Nothing,
}

/// P and K of a call.
#[derive(Clone, Copy, Debug, PartialEq, Eq)]
pub struct Sizes {
    pub p: usize,
    pub k: usize,
}

/// In which order workers come: the first, and each next one so much further, modulo P.
#[derive(Clone, Copy, Debug, PartialEq, Eq)]
pub struct Order {
    pub first: u32,
    pub stride: u32,
}

#[derive(Clone, Copy, Debug, PartialEq, Eq)]
pub enum Command {
    Step(Sizes, u32, Step),
    Begin(Sizes),
    /// Prints N, the run words, the record, and a hash of each list.
    Lists,
    /// P workers try every step, most of which are refused.
    Every(Sizes, Order),
    /// Turns until as many steps are accepted, or P turns in a row accept nothing.
    Turns(Sizes, Order, u32, Told),
}

impl Line {
    /// The line that the program reads.
    pub fn case(&self) -> String {
        match self {
            Line::Note(words) => format!("# {words}\n"),
            Line::Unreadable(line) => format!("{line}\n"),
            Line::Run(script) => script.case(),
        }
    }

    /// The lines that the program has to print.
    pub fn answer(&self) -> String {
        match self {
            Line::Note(words) => format!("# {words}\n"),
            Line::Unreadable(_) => String::from("unreadable\n"),
            Line::Run(script) => Play::of(script).printed,
        }
    }
}

/// All of one of the two files.
pub fn text(lines: &[Line], spell: impl Fn(&Line) -> String) -> String {
    lines.iter().map(spell).collect()
}

impl Script {
    fn case(&self) -> String {
        let mut line = format!("r {}", self.fill);
        add_words(&mut line, &List::ALL.map(|list| self.memory.length(list) as u32));
        add_words(&mut line, &self.memory.weights);
        add_words(&mut line, &self.memory.pred_starts);
        add_words(&mut line, &self.memory.preds);
        for command in &self.commands {
            add_words(&mut line, &command.numbers());
        }
        line + "\n"
    }
}

impl Command {
    pub fn numbers(self) -> [u32; 6] {
        let numbers = |what, sizes: Sizes, order: Order, steps| {
            [what, sizes.p as u32, sizes.k as u32, order.first, order.stride, steps]
        };
        let by = |first| Order { first, stride: 0 };
        match self {
            Command::Step(sizes, worker, step) => numbers(step as u32, sizes, by(worker), 0),
            Command::Begin(sizes) => numbers(4, sizes, by(0), 0),
            Command::Lists => numbers(5, Sizes { p: 0, k: 0 }, by(0), 0),
            Command::Every(sizes, order) => numbers(6, sizes, order, 0),
            Command::Turns(sizes, order, steps, told) => {
                let what = match told {
                    Told::Accepted => 7,
                    Told::All => 8,
                    Told::Nothing => 9,
                };
                numbers(what, sizes, order, steps)
            }
        }
    }
}

/// A script played by the model.
pub struct Play {
    pub memory: Memory,
    pub printed: String,
    /// How many steps were tried.
    pub tried: usize,
}

impl Play {
    pub fn of(script: &Script) -> Play {
        let mut play = Play {
            memory: script.memory.clone(),
            printed: String::new(),
            tried: 0,
        };
        script.commands.iter().for_each(|&command| play.follow(command));
        play
    }

    fn say(&mut self, line: &str) {
        self.printed += line;
        self.printed.push('\n');
    }

    fn follow(&mut self, command: Command) {
        match command {
            Command::Step(sizes, worker, step) => {
                self.step(sizes, worker, step, Told::All);
            }
            Command::Begin(sizes) => {
                let answer = begin(&mut self.memory, sizes.p, sizes.k);
                self.say(&format!("begin {}", shown_answer(answer)));
            }
            Command::Lists => self.lists(),
            Command::Every(sizes, order) => self.every(sizes, order),
            Command::Turns(sizes, order, steps, told) => self.turns(sizes, order, steps, told),
        }
    }

    /// Makes the step and prints its answer if that is asked for; whether it is accepted.
    fn step(&mut self, sizes: Sizes, worker: u32, what: Step, told: Told) -> bool {
        let answer = step(&mut self.memory, sizes.p, sizes.k, worker, what);
        self.tried += 1;
        let printed = match told {
            Told::All => true,
            Told::Accepted => answer.is_ok(),
            Told::Nothing => false,
        };
        if printed {
            self.say(&format!("{worker} {}{}", letter(what), shown_step(answer)));
        }
        answer.is_ok()
    }

    fn every(&mut self, sizes: Sizes, order: Order) {
        for worker in order.workers(sizes).take(sizes.p) {
            for what in BACKWARDS {
                self.step(sizes, worker, what, Told::All);
            }
        }
    }

    /// "each takes the first accepted of Release, Fetch, Start, Complete, or nothing"
    fn turns(&mut self, sizes: Sizes, order: Order, steps: u32, told: Told) {
        let (mut accepted, mut idle) = (0, 0);
        for worker in order.workers(sizes) {
            if TURN.into_iter().any(|what| self.step(sizes, worker, what, told)) {
                accepted += 1;
                idle = 0;
            } else {
                idle += 1;
            }
            if accepted == steps || idle == sizes.p {
                return;
            }
        }
    }

    fn lists(&mut self) {
        let memory = &self.memory;
        let record = match memory.executed.len() {
            0..=SHOWN => spaced(&memory.executed),
            _ => shown(&memory.executed),
        };
        let hashes = hashes(memory).map(|hash| format!(" {hash}")).concat();
        let lines = format!("{} {}\n{record}\nhashes{hashes}", memory.n(), spaced(&memory.run));
        self.say(&lines);
    }
}

impl Order {
    /// The workers in this order, without end.
    fn workers(self, sizes: Sizes) -> impl Iterator<Item = u32> {
        (0..).map(move |turn: usize| ((self.first as usize + turn * self.stride as usize) % sizes.p) as u32)
    }
}

fn letter(step: Step) -> char {
    match step {
        Step::Fetch => 'f',
        Step::Start => 's',
        Step::Complete => 'c',
        Step::Release => 'r',
    }
}

/// "An accepted Fetch answers the task; a Release answers either the degree left or the task with its new owner. Begin,
/// Start and Complete answer acceptance alone".
fn shown_step(answer: Result<Outcome, Refusal>) -> String {
    match answer {
        Ok(Outcome::Moved) => String::new(),
        Ok(Outcome::Fetched { task }) => format!(" {task}"),
        Ok(Outcome::DegreeLeft { degree }) => format!(" left {degree}"),
        Ok(Outcome::Placed { task, owner }) => format!(" {task} to {owner}"),
        Err(refusal) => format!(" refused {}", shown_answer(Answer::Err(refusal))),
    }
}

fn spaced(words: &[u32]) -> String {
    words.iter().map(u32::to_string).collect::<Vec<_>>().join(" ")
}

/// The hash of each list; a counter is hashed as the word that is 2^31 more.
fn hashes(memory: &Memory) -> [u64; 13] {
    let counters: Vec<u32> = memory
        .counters
        .iter()
        .map(|&counter| counter as u32 ^ 1 << 31)
        .collect();
    [
        &memory.weights,
        &memory.pred_starts,
        &memory.preds,
        &memory.succ_starts,
        &memory.succs,
        &memory.degrees,
        &memory.rings,
        &memory.ends,
        &counters,
        &memory.buffers,
        &memory.executed,
        &memory.run,
        &memory.rows.concat(),
    ]
    .map(|list| hash(list))
}
