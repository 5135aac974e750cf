//! Random texts of the layout, and the same damaged at a random place.

use super::spell::{self, Style, Tasks};
use super::{lines_of, noted, replaced};
use crate::draw::Draw;
use crate::frames::{Frame, TextTrial, LENT};

/// n tasks between the dummies; a task has up to `most` predecessors, some of them numbers that begin refuses.
fn tasks(draw: &mut Draw, n: usize, most: usize) -> Tasks {
    let mut tasks: Tasks = (0..n + 2)
        .map(|t| {
            let heaviest = draw.pick(&[0, 9, 999, 65_535]);
            let highest = draw.pick(&[t, n + 2, 65_535]);
            let time = draw.between(0, heaviest) as u32;
            let preds = (0..draw.below(most + 1)).map(|_| draw.between(0, highest) as u32);
            (time, preds.collect())
        })
        .collect();
    tasks[0] = (0, Vec::new());
    tasks[n + 1].0 = 0;
    tasks
}

/// A small text of the layout in any style.
fn any(draw: &mut Draw) -> Vec<u8> {
    let n = draw.pick(&[0, 1, 1, 2, 2, 3, 4, 6]);
    let tasks = tasks(draw, n, 4);
    Style::any(draw).spell(draw, &tasks)
}

/// The texts that are then damaged.
fn texts(seed: u64) -> Vec<Vec<u8>> {
    let mut draw = Draw::new(seed);
    (0..300).map(|_| any(&mut draw)).collect()
}

pub fn valid() -> Vec<Frame> {
    noted("random texts of the layout", texts(21))
}

#[derive(Clone, Copy, Debug)]
enum Damage {
    ByteChanged,
    ByteInserted,
    ByteRemoved,
    LineRemoved,
    LineDoubled,
    LinesExchanged,
}

const DAMAGES: [Damage; 6] = [
    Damage::ByteChanged,
    Damage::ByteInserted,
    Damage::ByteRemoved,
    Damage::LineRemoved,
    Damage::LineDoubled,
    Damage::LinesExchanged,
];

/// Mostly a byte that the layout knows or that looks like one.
fn any_byte(draw: &mut Draw) -> u8 {
    match draw.below(8) {
        0 => draw.below(256) as u8,
        1 => draw.pick(b"#\r\n"),
        2 => draw.pick(b"+-.x,_\0\x0b\x0c\x7f\xa0\xff"),
        3 => draw.pick(b" \t"),
        _ => draw.pick(b"0123456789"),
    }
}

impl Damage {
    fn apply(self, draw: &mut Draw, text: &[u8]) -> Vec<u8> {
        if text.is_empty() {
            return vec![any_byte(draw)];
        }
        let at = draw.below(text.len());
        let mut lines = lines_of(text);
        let [line, other] = [(); 2].map(|()| draw.below(lines.len()));
        match self {
            Damage::ByteChanged => return replaced(text, at, at + 1, &[any_byte(draw)]),
            Damage::ByteInserted => return replaced(text, at, at, &[any_byte(draw)]),
            Damage::ByteRemoved => return replaced(text, at, at + 1, b""),
            Damage::LineRemoved => drop(lines.remove(line)),
            Damage::LineDoubled => lines.insert(line, lines[line]),
            Damage::LinesExchanged => lines.swap(line, other),
        }
        lines.concat()
    }
}

/// Each of the random texts damaged, in every way in turn.
pub fn damaged() -> Vec<Frame> {
    let mut draw = Draw::new(22);
    let texts = texts(21);
    let mut all = Vec::new();
    for damage in DAMAGES {
        let some = texts.iter().filter(|_| draw.below(2) == 0).cloned().collect::<Vec<_>>();
        let damaged = some.iter().map(|text| damage.apply(&mut draw, text));
        all.extend(noted(&format!("damaged: {damage:?}"), damaged));
    }
    all
}

/// A text in the shape of the Standard Task Graph Set's files: wide columns and a comment behind the last task.
pub fn columns() -> Vec<Frame> {
    let mut draw = Draw::new(23);
    let mut tasks: Tasks = (0..52u32)
        .map(|t| {
            let preds: Vec<u32> = (0..t).filter(|_| draw.below(20) == 0).collect();
            let preds = if preds.is_empty() { vec![0] } else { preds };
            (draw.between(1, 10) as u32, preds)
        })
        .collect();
    tasks[0] = (0, Vec::new());
    tasks[51].0 = 0;
    let text = spell::columns(&tasks);
    let words =
        "#\n# made up for these trials\n#   Tasks            :   50 + 2 dummy tasks\n#   Seed             :   23\n\
                 #   Predecessors     :   one in twenty of the earlier tasks\n#   Processing time  :   1 to 10\n#\n";
    let whole = [&text, words.as_bytes()].concat();
    noted(
        "the shape of the Standard Task Graph Set: columns of 11, a comment at the end",
        [whole],
    )
}

/// A random text, valid or damaged at up to three places; at times larger, or with a lent list of another length.
pub fn further(draw: &mut Draw) -> TextTrial {
    let mut text = match draw.below(100) {
        0 => {
            let n = draw.between(0, 90);
            let tasks = tasks(draw, n, 12);
            Style::any(draw).spell(draw, &tasks)
        }
        1 => {
            let n = draw.between(0, 20);
            spell::columns(&tasks(draw, n, 5))
        }
        _ => any(draw),
    };
    for _ in 0..draw.pick(&[0, 1, 1, 1, 2, 3]) {
        text = draw.pick(&DAMAGES).apply(draw, &text);
    }
    let mut lent = LENT;
    if draw.below(50) == 0 {
        let list = draw.below(3);
        lent[list] = draw.between(lent[list] - 2, lent[list] + 2);
    }
    TextTrial { text, lent }
}
