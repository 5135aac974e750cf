//! The texts of the program `desk_trials`: document 01's example, the texts of `examples`, one text for each refusal of the
//! reader and of begin, random texts, and the largest.

use super::spell::{plain, Tasks};
use super::{noted, DIAMOND, LEAST};
use crate::draw::Draw;
use crate::frames::Frame;
use crate::model::{MAX_EDGES, MAX_TASKS};
use crate::runs::graphs::shaped_up_to;

/// Every case, in the order of the files.
pub fn all() -> Vec<Frame> {
    [
        noted("the diamond", [DIAMOND]),
        noted(
            "a map sheet, a chain, a star with too many roots, the diamond",
            [
                &include_bytes!("../../../examples/tiles.stg")[..],
                include_bytes!("../../../examples/chain.stg"),
                include_bytes!("../../../examples/star.stg"),
                include_bytes!("../../../examples/diamond.stg"),
            ],
        ),
        small(),
        broken(),
        beyond_limits(),
        refused_by_begin(),
        random(),
        noted("1,024 tasks, 8,192 edges", [plain(&largest())]),
    ]
    .concat()
}

fn small() -> Vec<Frame> {
    noted(
        "two dummies; as many roots as there is room for",
        [
            LEAST,
            b"0\n0 0 0\n1 0 1 0\n",
            b"0\r\n0\t0 0\r\n# comment\r\n\r\n 1 0 0",
            b"6\n0 0 0\n1 0 0\n2 0 0\n3 0 0\n4 0 0\n5 0 0\n6 0 0\n7 0 0\n",
            b"7\n0 0 0\n1 9 0\n2 8 0\n3 7 0\n4 6 0\n5 5 0\n6 4 0\n7 3 0\n8 0 7 1 2 3 4 5 6 7\n",
        ],
    )
}

/// 13: "text breaks the layout", detail "line, from 1".
fn broken() -> Vec<Frame> {
    noted(
        "texts that break the layout",
        [
            &b""[..],
            b"\n",
            b"x\n",
            b"0\n0 0 0\n",
            b"0\n0 1 0\n1 0 0\n",
            b"0\n0 0 0\n1 0 0\n2 0 0\n",
            b"2\n0 0 0\n1 5 2 0\n2 3 1 0\n3 0 2 1 2\n",
            b"# n\n\n2\n0 0 0\n1 5 1 0\n2 3 1 65536\n3 0 2 1 2\n",
        ],
    )
}

/// 2: "n is over 1,022 or the edges pass 8,192"; "text over 65,536 bytes".
fn beyond_limits() -> Vec<Frame> {
    let blanks = [&vec![b' '; 65_537 - DIAMOND.len()], DIAMOND].concat();
    [
        noted("n 1,023", ["1023\n"]),
        noted("65,537 bytes, blanks in front", [blanks]),
    ]
    .concat()
}

fn refused_by_begin() -> Vec<Frame> {
    noted(
        "begin refuses with 3, 4, 5, 6",
        [
            &b"1\n0 0 0\n1 5 1 3\n2 0 1 1\n"[..],
            b"1\n0 0 0\n1 5 1 65535\n2 0 1 1\n",
            b"1\n0 0 0\n1 5 1 0\n2 0 2 1 1\n",
            b"2\n0 0 0\n1 5 1 2\n2 5 1 1\n3 0 1 2\n",
            b"1\n0 0 0\n1 5 1 1\n2 0 1 1\n",
            b"7\n0 0 0\n1 0 0\n2 0 0\n3 0 0\n4 0 0\n5 0 0\n6 0 0\n7 0 0\n8 0 0\n",
        ],
    )
}

/// Tasks of any shape between the dummies: those without a predecessor come after the first one, or are roots too.
fn drawn(draw: &mut Draw) -> Tasks {
    let inner = shaped_up_to(draw, 30);
    let roots_stay = draw.below(3) == 0;
    let last = (0..=inner.len() as u32).collect();
    let mut tasks: Tasks = vec![(0, Vec::new())];
    for list in inner {
        let mut preds: Vec<u32> = list.into_iter().map(|task| task + 1).collect();
        if preds.is_empty() && !roots_stay {
            preds.push(0);
        }
        tasks.push((draw.between(0, 99) as u32, preds));
    }
    tasks.push((0, last));
    tasks
}

fn random() -> Vec<Frame> {
    let mut draw = Draw::new(5);
    let texts = (0..40).map(|_| plain(&drawn(&mut draw)));
    noted("random texts", texts.collect::<Vec<_>>())
}

/// Tasks of a layer, all of which come after tasks of layers before.
const WIDTH: usize = 6;

/// 1,024 tasks in layers and exactly 8,192 edges; the first dummy is the only root.
fn largest() -> Tasks {
    let mut draw = Draw::new(6);
    let last = MAX_TASKS - 1;
    // the tasks before a task's layer
    let before = |task: usize| {
        if task == last {
            task
        } else {
            (task - 1) / WIDTH * WIDTH + 1
        }
    };
    let mut tasks: Tasks = vec![(0, Vec::new())];
    for task in 1..MAX_TASKS {
        let time = if task == last {
            0
        } else {
            draw.between(0, 65_535) as u32
        };
        tasks.push((time, vec![before(task) as u32 - 1]));
    }
    let mut edges = last;
    while edges < MAX_EDGES {
        let task = draw.between(1, last);
        let pred = draw.below(before(task)) as u32;
        if !tasks[task].1.contains(&pred) {
            tasks[task].1.push(pred);
            edges += 1;
        }
    }
    tasks
}
