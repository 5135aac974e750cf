//! The table of docs/RULE.md on weak jobs: a seam between two tiles, run by the model in the desk program's turns.

use crate::memory::{Lists, Step};
use crate::model::Table;
use crate::pages::{table, Block};
use crate::weak::{begin, step, Copied, Memory, Outcome, HELD_PRED, HELD_TASK, UNFIXED};

const P: usize = 2;
const K: usize = 4;

/// Tiles 1 and 2 after task 0, and their seam, task 3, after both.
const WEIGHTS: [u32; 4] = [1, 5, 3, 4];

/// A Release or a Complete of the run.
#[derive(Clone, Debug, PartialEq, Eq)]
pub struct Row {
    pub step: Step,
    pub worker: u32,
    pub copy: Copied,
    /// Before the step.
    pub loads: [i64; P],
    /// Of a Release: the worker that its task was fixed to before.
    pub fixed: Option<u32>,
    /// Of a Release: the owner of the ring used.
    pub owner: Option<u32>,
    /// The copies that aren't completed after the step.
    pub left: u32,
}

/// The run in the desk program's turns, its Releases and Completes.
pub fn seam() -> Vec<Row> {
    let preds = Table {
        starts: vec![0, 0, 1, 2, 4],
        words: vec![0, 0, 1, 2],
    };
    let mut memory = Memory::sized(WEIGHTS.to_vec(), preds.starts, preds.words, P, K, 0);
    begin(&mut memory, P, K).expect("the seam is begun");
    let mut rows = Vec::new();
    let mut worker = 0;
    while memory.run[0] < 5 {
        let before = memory.clone();
        let turn = [Step::Release, Step::Fetch, Step::Start, Step::Complete];
        let taken = turn.into_iter().find_map(|which| {
            step(&mut memory, P, K, worker, which)
                .ok()
                .map(|outcome| (which, outcome))
        });
        if let Some((which, outcome)) = taken {
            rows.extend(row(&before, &memory, worker, which, outcome));
        }
        worker = 1 - worker;
    }
    rows
}

fn row(before: &Memory, after: &Memory, worker: u32, which: Step, outcome: Outcome) -> Option<Row> {
    let (copy, owner) = match (which, outcome) {
        (Step::Release, Outcome::Placed { copy, owner }) => (copy, Some(owner)),
        (Step::Complete, _) => {
            let held = before.rows[worker as usize];
            let copy = Copied {
                task: held[HELD_TASK],
                pred: held[HELD_PRED],
            };
            (copy, None)
        }
        _ => return None,
    };
    let task = copy.task as usize;
    let load = |i: usize| {
        before.counters[i * P..(i + 1) * P]
            .iter()
            .map(|&one| i64::from(one))
            .sum()
    };
    Some(Row {
        step: which,
        worker,
        copy,
        loads: [load(0), load(1)],
        fixed: Some(before.fixed[task]).filter(|&fixed| fixed != UNFIXED && owner.is_some()),
        owner,
        left: after.degrees[task],
    })
}

impl Row {
    fn named(&self) -> String {
        let Copied { task, pred } = self.copy;
        match pred {
            crate::memory::NIL => task.to_string(),
            _ => format!("{task}·{pred}"),
        }
    }

    fn told(&self) -> String {
        let task = self.copy.task;
        match (self.owner, self.fixed, self.left) {
            (Some(owner), None, _) => format!("first copy: to {owner}, and task {task} is fixed to {owner}"),
            (Some(owner), Some(_), _) => format!("follows: to {owner}"),
            (None, _, 0) => format!("task {task} is complete"),
            (None, _, 1) => format!("1 copy of task {task} is left"),
            (None, _, left) => format!("{left} copies of task {task} are left"),
        }
    }
}

/// The tables between the page's marks.
pub fn blocks() -> Vec<Block> {
    let numbers = |numbers: &[u32]| numbers.iter().map(u32::to_string).collect::<Vec<_>>();
    let named = |name: &str, cells: Vec<String>| [vec![String::from(name)], cells].concat();
    let after = ["none", "0", "0", "1, 2"].map(String::from).to_vec();
    let copies = ["0", "1·0", "2·0", "3·1, 3·2"].map(String::from).to_vec();
    let tasks = table(
        &named("task", numbers(&[0, 1, 2, 3])),
        &[
            named("weight", numbers(&WEIGHTS)),
            named("after", after),
            named("copies", copies),
        ],
    );
    let head = [
        "row",
        "step",
        "by",
        "copy",
        "load of 0",
        "load of 1",
        "what comes of it",
    ]
    .map(String::from);
    let rows: Vec<Vec<String>> = seam()
        .iter()
        .zip(1..)
        .map(|(row, place)| {
            let [first, second] = row.loads.map(|load| load.to_string());
            let step = format!("{:?}", row.step);
            let (place, by) = (place.to_string(), row.worker.to_string());
            vec![place, step, by, row.named(), first, second, row.told()]
        })
        .collect();
    let text = format!(
        "P {P}, K {K}: a ring holds {K} copies.\n\n{tasks}\n{}",
        table(&head, &rows)
    );
    vec![Block { name: "seam", text }]
}
