//! Tasks spelled as a text, with white space of every kind.

use crate::draw::Draw;
use crate::model::MAX_TASKS;

/// Each task's time and predecessors, the dummies included.
pub type Tasks = Vec<(u32, Vec<u32>)>;

/// The text's lines as fields: n, and a line for each task.
pub fn lines(tasks: &Tasks) -> Vec<Vec<u32>> {
    let task = |(number, (time, preds)): (usize, &(u32, Vec<u32>))| {
        [&[number as u32, *time, preds.len() as u32], preds.as_slice()].concat()
    };
    let mut lines = vec![vec![tasks.len() as u32 - 2]];
    lines.extend(tasks.iter().enumerate().map(task));
    lines
}

/// Single spaces, ends in LF.
pub fn plain(tasks: &Tasks) -> Vec<u8> {
    let line = |fields: Vec<u32>| fields.iter().map(u32::to_string).collect::<Vec<_>>().join(" ") + "\n";
    lines(tasks).into_iter().map(line).collect::<String>().into_bytes()
}

/// Every field right-aligned in 11 columns, as in the files of the Standard Task Graph Set.
pub fn columns(tasks: &Tasks) -> Vec<u8> {
    let line = |fields: Vec<u32>| fields.iter().map(|field| format!("{field:>11}")).collect::<String>() + "\n";
    lines(tasks).into_iter().map(line).collect::<String>().into_bytes()
}

/// 1,024 tasks and this many edges, each from an earlier task, so without a cycle.
pub fn largest(seed: u64, edges: usize) -> Tasks {
    let mut draw = Draw::new(seed);
    let mut tasks: Tasks = (0..MAX_TASKS)
        .map(|_| (draw.between(1, 65_535) as u32, Vec::new()))
        .collect();
    tasks[0].0 = 0;
    tasks[MAX_TASKS - 1].0 = 0;
    for _ in 0..edges {
        let t = draw.between(1, MAX_TASKS - 1);
        tasks[t].1.push(draw.below(t) as u32);
    }
    tasks
}

/// The text with a comment behind it up to this length.
pub fn filled(mut text: Vec<u8>, length: usize) -> Vec<u8> {
    text.push(b'#');
    text.resize(length, b'.');
    text
}

#[derive(Clone, Copy, Debug)]
pub enum Ends {
    Lf,
    CrLf,
    Mixed,
}

/// What a spelling may use beside single spaces.
#[derive(Clone, Copy, Debug)]
pub struct Style {
    pub ends: Ends,
    /// Spaces and tabs, several together, and around the line.
    pub blanks: bool,
    /// Leading zeros, up to five digits.
    pub zeros: bool,
    /// Blank lines and comments.
    pub skipped: bool,
    pub last_end: bool,
}

impl Style {
    pub fn any(draw: &mut Draw) -> Style {
        Style {
            ends: draw.pick(&[Ends::Lf, Ends::CrLf, Ends::Mixed]),
            blanks: draw.below(2) == 0,
            zeros: draw.below(2) == 0,
            skipped: draw.below(2) == 0,
            last_end: draw.below(3) > 0,
        }
    }

    fn end(self, draw: &mut Draw) -> &'static [u8] {
        match self.ends {
            Ends::Lf => b"\n",
            Ends::CrLf => b"\r\n",
            Ends::Mixed => draw.pick(&[b"\n", b"\r\n"]),
        }
    }

    /// Blanks, at least this many.
    fn add_blanks(self, draw: &mut Draw, text: &mut Vec<u8>, least: usize) {
        if !self.blanks {
            text.resize(text.len() + least, b' ');
            return;
        }
        let count = least + draw.pick(&[0, 0, 1, 2]);
        text.extend((0..count).map(|_| draw.pick(b" \t")));
    }

    fn add_field(self, draw: &mut Draw, text: &mut Vec<u8>, field: u32) {
        let width = if self.zeros { draw.below(6) } else { 0 };
        text.extend(format!("{field:0width$}").into_bytes());
    }

    fn add_skipped(self, draw: &mut Draw, text: &mut Vec<u8>) {
        while self.skipped && draw.below(4) == 0 {
            self.add_blanks(draw, text, 0);
            if draw.below(2) == 0 {
                text.push(b'#');
                let bytes = (0..draw.below(9)).map(|_| draw.below(256) as u8);
                text.extend(bytes.filter(|&byte| byte != b'\n'));
            }
            text.extend(self.end(draw));
        }
    }

    /// The tasks spelled so.
    pub fn spell(self, draw: &mut Draw, tasks: &Tasks) -> Vec<u8> {
        let mut text = Vec::new();
        for fields in lines(tasks) {
            self.add_skipped(draw, &mut text);
            self.add_blanks(draw, &mut text, 0);
            for (i, &field) in fields.iter().enumerate() {
                self.add_blanks(draw, &mut text, usize::from(i > 0));
                self.add_field(draw, &mut text, field);
            }
            self.add_blanks(draw, &mut text, 0);
            text.extend(self.end(draw));
        }
        self.add_skipped(draw, &mut text);
        if !self.last_end {
            text.pop();
            text.pop_if(|byte| *byte == b'\r');
        }
        text
    }
}
