//! A writer of task texts as one would write it in plain Rust: the graph is judged, the text is measured, and then it is written
//! into the lent buffer, field after field. It keeps the promises of the proved writer, whose cost is compared with its own.

use crate::model::{refused, Refusal, MAX_EDGES, MAX_TASKS};
use crate::plain_engine::graph::Preds;

const MAX_WEIGHT: u32 = 65_535;

/// 2, 1, 3, 4 and 5, then 14.
fn judge(weights: &[u32], starts: &[u32], preds: &[u32]) -> Result<(), Refusal> {
    let heavy = weights.iter().any(|&weight| weight > MAX_WEIGHT);
    if weights.len() > MAX_TASKS || preds.len() > MAX_EDGES || heavy {
        return refused(2, 0);
    }
    if starts.len() != weights.len() + 1 {
        return refused(1, 0);
    }
    Preds::new(starts, preds).judge()?;
    match weights {
        [0, .., 0] if starts[1] == 0 => Ok(()),
        _ => refused(14, 0),
    }
}

/// Of a field, which is at most 65,535.
fn digits(field: u32) -> usize {
    match field {
        0..=9 => 1,
        10..=99 => 2,
        100..=999 => 3,
        1_000..=9_999 => 4,
        _ => 5,
    }
}

/// How many bytes the text has: each field's digits, and a space or an LF behind it.
fn measure(weights: &[u32], starts: &[u32], preds: &[u32]) -> usize {
    let bytes = |field: u32| digits(field) + 1;
    let first = bytes(weights.len() as u32 - 2);
    let tasks = weights.iter().zip(starts.windows(2)).enumerate();
    let tasks = tasks.map(|(task, (&weight, part))| bytes(task as u32) + bytes(weight) + bytes(part[1] - part[0]));
    let preds = preds.iter().map(|&pred| bytes(pred));
    first + tasks.sum::<usize>() + preds.sum::<usize>()
}

/// The buffer, and how many of its bytes are written.
struct Pen<'a> {
    text: &'a mut [u8],
    used: usize,
}

impl Pen<'_> {
    fn mark(&mut self, mark: u8) {
        self.text[self.used] = mark;
        self.used += 1;
    }

    fn field(&mut self, field: u32) {
        let end = self.used + digits(field);
        let mut rest = field;
        for byte in self.text[self.used..end].iter_mut().rev() {
            *byte = b'0' + (rest % 10) as u8;
            rest /= 10;
        }
        self.used = end;
    }

    fn line(&mut self, task: u32, weight: u32, preds: &[u32]) {
        self.field(task);
        self.mark(b' ');
        self.field(weight);
        self.mark(b' ');
        self.field(preds.len() as u32);
        for &pred in preds {
            self.mark(b' ');
            self.field(pred);
        }
        self.mark(b'\n');
    }
}

/// Writes the text of the graph into the buffer and answers how many bytes it has; refused, it writes nothing.
pub fn write(weights: &[u32], starts: &[u32], preds: &[u32], text: &mut [u8]) -> Result<u32, Refusal> {
    judge(weights, starts, preds)?;
    if measure(weights, starts, preds) > text.len() {
        return refused(1, 0);
    }
    let mut pen = Pen { text, used: 0 };
    pen.field(weights.len() as u32 - 2);
    pen.mark(b'\n');
    for (task, (&weight, part)) in weights.iter().zip(starts.windows(2)).enumerate() {
        pen.line(task as u32, weight, &preds[part[0] as usize..part[1] as usize]);
    }
    Ok(pen.used as u32)
}
