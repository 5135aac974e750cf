//! The tables of docs/RULE.md: runs of the model, watched as an operator watches them, who adds up loads and looks for
//! room. Which ring is used stands there as the model answers it.

use crate::desk;
use crate::engine::{begin, step};
use crate::memory::{Memory, Outcome, Step, COUNT, END_WORDS, HEAD, HELD, PHASE};
use crate::model::{word, Refusal, Table};
use crate::pages::{table, Block};
use crate::texts::DIAMOND;

/// What an operator sees before a Release: of each worker what it has in its hand and, by filler, the counters and what waits in
/// the rings.
#[derive(Clone, Debug)]
pub struct View {
    /// The releasing worker.
    worker: usize,
    hands: Vec<Option<u32>>,
    counters: Vec<Vec<i32>>,
    rings: Vec<Vec<Ring>>,
}

#[derive(Clone, Debug)]
struct Ring {
    /// The next one to take first.
    tasks: Vec<u32>,
    full: bool,
}

impl View {
    /// The lists that a begin with this P and K was lent, and a worker below P.
    pub fn of(memory: &Memory, p: usize, k: usize, worker: u32) -> View {
        let hands = memory.rows.iter().map(|row| (row[PHASE] > 0).then_some(row[HELD]));
        let counters = memory.counters.chunks(p).map(<[i32]>::to_vec);
        let ring = |ring: usize| {
            let tasks = waiting(memory, ring, k);
            // "holds K tasks"
            let full = tasks.len() == k;
            Ring { tasks, full }
        };
        let rings = (0..p).map(|owner| (owner * p..(owner + 1) * p).map(ring).collect());
        View {
            worker: worker as usize,
            hands: hands.collect(),
            counters: counters.collect(),
            rings: rings.collect(),
        }
    }

    /// The task that a worker has fetched or is running: "in its hand".
    pub fn hand(&self, owner: u32) -> Option<u32> {
        self.hands[owner as usize]
    }

    /// Of a worker's rings that aren't empty: the filler and the tasks, the next one to take first.
    pub fn waiting(&self, owner: u32) -> Vec<(u32, &[u32])> {
        let rings = self.rings[owner as usize].iter().enumerate();
        rings
            .filter(|(_, ring)| !ring.tasks.is_empty())
            .map(|(filler, ring)| (word(filler), ring.tasks.as_slice()))
            .collect()
    }

    /// Whether this owner's ring that the releasing worker fills is full.
    fn is_full(&self, owner: u32) -> bool {
        self.rings[owner as usize][self.worker].full
    }

    /// "sum of its P counters", of each worker.
    pub fn loads(&self) -> Vec<i64> {
        let sum = |counters: &Vec<i32>| counters.iter().map(|&counter| i64::from(counter)).sum();
        self.counters.iter().map(sum).collect()
    }

    /// The workers "with the least sum of its P counters", rising.
    pub fn least(&self) -> Vec<u32> {
        let loads = self.loads();
        let least = loads.iter().min();
        let workers = (0..loads.len()).filter(|&worker| Some(&loads[worker]) == least);
        workers.map(word).collect()
    }

    /// "the lowest number on equal sums"
    pub fn target(&self) -> u32 {
        self.least().first().copied().unwrap_or(0)
    }

    /// "owners taken j, j+1, … modulo P"
    fn owners(&self) -> impl Iterator<Item = u32> + '_ {
        let (target, p) = (self.target() as usize, self.rings.len());
        (0..p).map(move |passed| word((target + passed) % p))
    }

    /// The owners that are passed because the ring is full.
    pub fn passed(&self) -> Vec<u32> {
        self.owners().take_while(|&owner| self.is_full(owner)).collect()
    }

    /// The owner of "the first ring filled by i that isn't full"; none if all are.
    pub fn foreseen(&self) -> Option<u32> {
        self.owners().find(|&owner| !self.is_full(owner))
    }
}

/// A Release of a task that no predecessor holds back any more.
#[derive(Clone, Debug)]
pub struct Placement {
    pub worker: u32,
    /// The tasks fetched since the placement before, each with its worker.
    pub fetched: Vec<(u32, u32)>,
    pub task: u32,
    pub view: View,
    /// The owner that the model answers; none where it refuses with 11.
    pub owner: Option<u32>,
}

/// A run that the page shows.
pub struct Example {
    name: &'static str,
    p: usize,
    k: usize,
    begun: Memory,
    memory: Memory,
    steps: Vec<(u32, Step)>,
    fetched: Vec<(u32, u32)>,
    pub placements: Vec<Placement>,
}

impl Example {
    fn of(name: &'static str, begun: Memory, p: usize, k: usize) -> Example {
        Example {
            name,
            p,
            k,
            memory: begun.clone(),
            begun,
            steps: Vec::new(),
            fetched: Vec::new(),
            placements: Vec::new(),
        }
    }

    /// Weight and predecessors of each task.
    fn begin(name: &'static str, tasks: &[(u32, &[u32])], p: usize, k: usize) -> Example {
        let weights = tasks.iter().map(|&(weight, _)| weight).collect();
        let lists: Vec<Vec<u32>> = tasks.iter().map(|(_, preds)| preds.to_vec()).collect();
        let Table { starts, words } = Table::of(&lists);
        let mut memory = Memory::sized(weights, starts, words, p, k, 0);
        begin(&mut memory, p, k).expect("begin accepts the examples");
        Example::of(name, memory, p, k)
    }

    /// What is seen after all steps, by a worker who would release next.
    pub fn after(&self, worker: u32) -> View {
        View::of(&self.memory, self.p, self.k, worker)
    }

    /// Takes the step and keeps what the page shows of it; whether it is accepted.
    fn step(&mut self, worker: u32, each: Step) -> bool {
        self.steps.push((worker, each));
        let view = self.after(worker);
        let answer = step(&mut self.memory, self.p, self.k, worker, each);
        match answer {
            Ok(Outcome::Fetched { task }) => self.fetched.push((task, worker)),
            Ok(Outcome::Placed { task, owner }) => self.keep(worker, task, view, Some(owner)),
            Err(Refusal { number: 11, detail }) => self.keep(worker, detail, view, None),
            _ => {}
        }
        answer.is_ok()
    }

    fn keep(&mut self, worker: u32, task: u32, view: View, owner: Option<u32>) {
        self.placements.push(Placement {
            worker,
            fetched: std::mem::take(&mut self.fetched),
            task,
            view,
            owner,
        });
    }

    /// Fetch, Start and Complete by this worker.
    fn execute(&mut self, worker: u32) {
        for each in [Step::Fetch, Step::Start, Step::Complete] {
            self.step(worker, each);
        }
    }

    /// So many Releases by this worker.
    fn release(&mut self, worker: u32, times: usize) {
        for _ in 0..times {
            self.step(worker, Step::Release);
        }
    }
}

/// The desk program's diamond in the desk's turns: "Turns go 0, 1, 0, 1, …; each takes the first accepted of Release, Fetch,
/// Start, Complete, or nothing, until 3N+E are accepted."
pub fn diamond() -> Example {
    let begun = desk::begun(DIAMOND).expect("the desk's example is accepted");
    let all = 3 * begun.n() + begun.e();
    let mut example = Example::of("diamond", begun, desk::P, desk::K);
    // of P turns one at least takes a step until all are taken, and later ones take nothing
    for worker in (0..word(desk::P)).cycle().take(desk::P * all) {
        desk::TURN.into_iter().any(|each| example.step(worker, each));
    }
    example
}

/// Worker 0 has a long task in its hand, and no ring shows it: what worker 1 releases stays with worker 1. "Operators see new
/// tiles sent to a machine that has just taken an hour's work."
pub fn long_task() -> Example {
    let mut example = Example::begin("long task", &[(60, &[]), (1, &[]), (1, &[1])], 2, 4);
    example.step(0, Step::Fetch);
    example.execute(1);
    example.release(1, 1);
    example
}

/// A light worker 0, whose ring has a root left and is full after one task: the next tasks go to the owners behind it, first to
/// worker 1, which has the largest load, until no ring has room.
pub fn fallback() -> Example {
    let after: &[u32] = &[0];
    let roots = [(4, &[][..]), (7, &[]), (9, &[]), (1, &[]), (5, &[])];
    let successors = [(1, after), (1, after), (1, after), (1, after), (1, after), (2, after)];
    let mut example = Example::begin("fallback", &[&roots[..], &successors].concat(), 3, 2);
    example.execute(0);
    example.release(0, 6);
    example.step(2, Step::Fetch);
    example.release(0, 1);
    example
}

/// Loads that become equal again and again.
pub fn tie() -> Example {
    let after: &[u32] = &[0];
    let roots = [(2, &[][..]), (4, &[]), (4, &[]), (7, &[])];
    let successors = [(1, after), (3, after), (2, after), (1, after)];
    let mut example = Example::begin("tie", &[&roots[..], &successors].concat(), 3, 4);
    example.execute(0);
    example.release(0, 4);
    example
}

/// Worker 0 runs a long task, which counts; the releasing worker 1 counts like any other.
pub fn running() -> Example {
    let after: &[u32] = &[1];
    let roots = [(60, &[][..]), (2, &[]), (5, &[])];
    let successors = [(4, after), (4, after), (1, after)];
    let mut example = Example::begin("answer 1", &[&roots[..], &successors].concat(), 3, 4);
    example.step(0, Step::Fetch);
    example.step(0, Step::Start);
    example.execute(1);
    example.release(1, 3);
    example
}

/// Worker 2 stays the target, since the weights join the workers whose rings are used; the search goes on from worker 3 to 0.
pub fn past_the_last() -> Example {
    let after: &[u32] = &[2];
    let roots = [(8, &[][..]), (5, &[]), (1, &[]), (6, &[])];
    let successors = [(1, after), (1, after), (3, after), (1, after), (1, after)];
    let mut example = Example::begin("answer 2", &[&roots[..], &successors].concat(), 4, 2);
    example.execute(2);
    example.release(2, 5);
    example
}

/// A Fetch that makes no room, since it takes from a ring that another worker fills, and one that does. Neither changes a load;
/// the Complete between them does.
pub fn room() -> Example {
    let after: &[u32] = &[1];
    let roots = [(6, &[][..]), (2, &[])];
    let successors = [(2, after), (1, after), (1, after), (1, after), (2, after)];
    let mut example = Example::begin("answer 3", &[&roots[..], &successors].concat(), 2, 2);
    example.execute(1);
    example.release(1, 5);
    example.step(0, Step::Fetch);
    example.release(1, 1);
    example.step(0, Step::Start);
    example.step(0, Step::Complete);
    example.step(0, Step::Fetch);
    example.release(1, 1);
    example
}

/// What stands in docs/RULE.md: the examples, then each exercise with its answer.
pub fn blocks() -> Vec<Block> {
    let examples = [diamond(), long_task(), fallback(), tie()].map(|each| each.worked());
    let exercises = [
        ("exercise 1", running()),
        ("exercise 2", past_the_last()),
        ("exercise 3", room()),
    ];
    let asked = exercises
        .iter()
        .flat_map(|(name, each)| [each.asked(name), each.answered()]);
    examples.into_iter().chain(asked).collect()
}

impl Example {
    /// The whole example.
    fn worked(&self) -> Block {
        Block {
            name: self.name,
            text: format!("{}\n{}", self.job(), self.answer()),
        }
    }

    /// The job and the steps, without what comes of them.
    fn asked(&self, name: &'static str) -> Block {
        Block {
            name,
            text: format!("{}\nThe steps:\n\n{}", self.job(), self.taken()),
        }
    }

    /// What comes of the steps.
    fn answered(&self) -> Block {
        Block {
            name: self.name,
            text: self.answer(),
        }
    }

    fn job(&self) -> String {
        let Example { p, k, .. } = self;
        format!(
            "P {p}, K {k}: a ring holds {}.\n\n{}",
            counted(*k, "task"),
            self.tasks()
        )
    }

    fn answer(&self) -> String {
        format!("{}\n{}", self.waits(), self.releases())
    }

    /// The steps in their order, a line for those that a worker takes one after the other.
    fn taken(&self) -> String {
        let turns = self.steps.chunk_by(|(worker, _), (next, _)| worker == next);
        let turn = |steps: &[(u32, Step)]| {
            let names: Vec<String> = steps.iter().map(|(_, each)| format!("{each:?}")).collect();
            format!("- worker {}: {}\n", steps[0].0, names.join(", "))
        };
        turns.map(turn).collect()
    }

    /// Weight, predecessors and, of the roots, the worker at begin; a column for each task.
    fn tasks(&self) -> String {
        let line = |name: &str, cell: &dyn Fn(usize) -> String| {
            let cells = (0..self.begun.n()).map(cell);
            std::iter::once(String::from(name)).chain(cells).collect()
        };
        let head: Vec<String> = line("task", &|task| task.to_string());
        let rows = [
            line("weight", &|task| self.begun.weights[task].to_string()),
            line("after", &|task| listed(predecessors(&self.begun, task))),
            line("dealt at begin to", &|task| listed(&self.dealt_to(word(task)))),
        ];
        table(&head, &rows)
    }

    /// The owners for whom the task waits after begin: one for a root, else none.
    fn dealt_to(&self, task: u32) -> Vec<u32> {
        let Example { p, k, begun, .. } = self;
        let rings = (0..p * p).filter(|&ring| waiting(begun, ring, *k).contains(&task));
        rings.map(|ring| word(ring / p)).collect()
    }

    /// What is in which hand and what waits in which ring before each Release.
    fn waits(&self) -> String {
        let owners = (0..self.p).map(|owner| format!("rings of {owner}"));
        let head: Vec<String> = ["row", "fetched before", "in hand"]
            .map(String::from)
            .into_iter()
            .chain(owners)
            .collect();
        let rows: Vec<Vec<String>> = self.numbered(|each| {
            let hands = (0..).zip(&each.view.hands);
            let held: Vec<(u32, u32)> = hands.filter_map(|(by, hand)| hand.map(|task| (task, by))).collect();
            let rings = each.view.rings.iter().map(|rings| rings_cell(rings));
            [&each.fetched, &held]
                .map(|tasks| by_workers(tasks))
                .into_iter()
                .chain(rings)
                .collect()
        });
        table(&head, &rows)
    }

    fn releases(&self) -> String {
        let loads = (0..self.p).map(|worker| format!("load of {worker}"));
        let head: Vec<String> = ["row", "by", "task"]
            .map(String::from)
            .into_iter()
            .chain(loads)
            .chain(["target", "passed", "ring used"].map(String::from))
            .collect();
        table(&head, &self.numbered(release_cells))
    }

    /// A row for each Release, its number first.
    fn numbered(&self, cells: impl Fn(&Placement) -> Vec<String>) -> Vec<Vec<String>> {
        let rows = self.placements.iter().zip(1..);
        rows.map(|(each, number): (_, u32)| [vec![number.to_string()], cells(each)].concat())
            .collect()
    }
}

fn release_cells(each: &Placement) -> Vec<String> {
    let used = match each.owner {
        Some(owner) => format!("of {owner}, filled by {}", each.worker),
        None => format!("refused 11, detail {}", each.task),
    };
    let sums = each.view.counters.iter().zip(each.view.loads());
    let loads = sums.map(|(counters, load)| load_cell(counters, load));
    let last = [target_cell(&each.view), listed(&each.view.passed()), used];
    [each.worker.to_string(), each.task.to_string()]
        .into_iter()
        .chain(loads)
        .chain(last)
        .collect()
}

/// Tasks, each with its worker: `2 by 1, 1 by 0`.
fn by_workers(tasks: &[(u32, u32)]) -> String {
    let cells: Vec<String> = tasks.iter().map(|(task, by)| format!("{task} by {by}")).collect();
    joined(&cells)
}

/// A worker's rings that aren't empty, as the lesson board shows them: the filler, then the tasks, the next one to take first.
fn rings_cell(rings: &[Ring]) -> String {
    let shown = rings.iter().enumerate().filter(|(_, ring)| !ring.tasks.is_empty());
    let cells = shown.map(|(filler, ring)| {
        let full = if ring.full { " full" } else { "" };
        format!("{filler}: {}{full}", listed(&ring.tasks))
    });
    let cells: Vec<String> = cells.collect();
    if cells.is_empty() {
        return String::from("none");
    }
    cells.join("; ")
}

fn predecessors(memory: &Memory, task: usize) -> &[u32] {
    &memory.preds[memory.pred_starts[task] as usize..memory.pred_starts[task + 1] as usize]
}

/// The tasks in a ring, the next one to take first.
fn waiting(memory: &Memory, ring: usize, k: usize) -> Vec<u32> {
    let [head, count] = [HEAD, COUNT].map(|place| memory.ends[END_WORDS * ring + place] as usize);
    let slots = (0..count).map(|passed| (head + passed) % k);
    slots.map(|slot| memory.rings[ring * k + slot]).collect()
}

/// The target, and all workers with its load where there are several.
fn target_cell(view: &View) -> String {
    let least = view.least();
    match least.len() {
        1 => view.target().to_string(),
        _ => format!("{} (tie of {})", view.target(), listed(&least)),
    }
}

/// A load as its counters are added, without those that are 0: `3 − 3 = 0`.
fn load_cell(counters: &[i32], load: i64) -> String {
    let counted: Vec<i32> = counters.iter().copied().filter(|&counter| counter != 0).collect();
    match counted.len() {
        0 | 1 => signed(load),
        _ => format!("{} = {}", added(&counted), signed(load)),
    }
}

fn added(counters: &[i32]) -> String {
    let rest = counters[1..].iter().map(|&counter| {
        let sign = if counter < 0 { "−" } else { "+" };
        format!(" {sign} {}", counter.unsigned_abs())
    });
    std::iter::once(signed(i64::from(counters[0]))).chain(rest).collect()
}

fn signed(number: i64) -> String {
    let sign = if number < 0 { "−" } else { "" };
    format!("{sign}{}", number.unsigned_abs())
}

fn counted(count: usize, thing: &str) -> String {
    let ending = if count == 1 { "" } else { "s" };
    format!("{count} {thing}{ending}")
}

fn listed(numbers: &[u32]) -> String {
    let shown: Vec<String> = numbers.iter().map(u32::to_string).collect();
    joined(&shown)
}

fn joined(cells: &[String]) -> String {
    if cells.is_empty() {
        return String::from("none");
    }
    cells.join(", ")
}
