//! A reader of task texts as one would write it in plain Rust: one pass over the bytes into local arrays, which are copied
//! out once the whole text is accepted. It keeps the promises of the proved reader, whose cost is compared with its own.

use crate::model::{Refusal, MAX_EDGES, MAX_TASKS};

const MAX_TEXT: usize = 65_536;
const MAX_FIELD: u32 = 65_535;
const MAX_DIGITS: usize = 5;

/// What is left of the text, and the number of the line that it starts in.
struct Scan<'a> {
    rest: &'a [u8],
    line: u32,
}

impl Scan<'_> {
    fn skip_blanks(&mut self) {
        while let [b' ' | b'\t', rest @ ..] = self.rest {
            self.rest = rest;
        }
    }

    fn skip_comment(&mut self) {
        let length = self.rest.iter().position(|&byte| byte == b'\n');
        self.rest = &self.rest[length.unwrap_or(self.rest.len())..];
    }

    /// Passes the end of the line, if it comes next.
    fn pass_end(&mut self) -> bool {
        self.rest = match self.rest {
            [] => &[],
            [b'\n', rest @ ..] | [b'\r', b'\n', rest @ ..] => rest,
            _ => return false,
        };
        self.line += 1;
        true
    }

    /// Passes skipped lines and the blanks of the next one; false at the end of the text.
    fn find_line(&mut self) -> bool {
        while !self.rest.is_empty() {
            self.skip_blanks();
            if self.rest.first() == Some(&b'#') {
                self.skip_comment();
            }
            if !self.pass_end() {
                return true;
            }
        }
        false
    }

    fn field(&mut self) -> Option<u32> {
        self.skip_blanks();
        let mut value: u32 = 0;
        let mut rest = self.rest;
        while let [byte @ b'0'..=b'9', more @ ..] = rest {
            // a value that wraps has too many digits
            value = value.wrapping_mul(10).wrapping_add(u32::from(byte - b'0'));
            rest = more;
        }
        let digits = self.rest.len() - rest.len();
        self.rest = rest;
        ((1..=MAX_DIGITS).contains(&digits) && value <= MAX_FIELD).then_some(value)
    }

    /// Nothing but blanks may be left in the line.
    fn end(&mut self) -> Option<()> {
        self.skip_blanks();
        self.pass_end().then_some(())
    }
}

/// What is read of the text so far.
struct Tables {
    weights: [u32; MAX_TASKS],
    starts: [u32; MAX_TASKS + 1],
    preds: [u32; MAX_EDGES],
    edges: usize,
}

impl Tables {
    /// Reads the line of one task, the last of which is n+1; the edges may pass their limit.
    fn read_task(&mut self, scan: &mut Scan, task: usize, n: usize) -> Option<()> {
        let number = scan.field()? as usize;
        let time = scan.field()?;
        let count = scan.field()? as usize;
        let dummy = task == 0 || task == n + 1;
        if number != task || (dummy && time != 0) || (task == 0 && count != 0) {
            return None;
        }
        let end = self.edges + count;
        for place in self.edges..end {
            let pred = scan.field()?;
            // beyond the limit the line is still judged
            if let Some(word) = self.preds.get_mut(place) {
                *word = pred;
            }
        }
        self.edges = end;
        self.weights[task] = time;
        self.starts[task + 1] = end as u32;
        scan.end()
    }
}

/// Reads the text into the three lists and answers N and E; refused, it writes nothing.
pub fn read(text: &[u8], weights: &mut [u32], starts: &mut [u32], preds: &mut [u32]) -> Result<(u32, u32), Refusal> {
    let refused = |number, detail| Err(Refusal { number, detail });
    if weights.len() != MAX_TASKS || starts.len() != MAX_TASKS + 1 || preds.len() != MAX_EDGES {
        return refused(1, 0);
    }
    if text.len() > MAX_TEXT {
        return refused(2, 0);
    }
    let mut scan = Scan { rest: text, line: 1 };
    if !scan.find_line() {
        return refused(13, scan.line);
    }
    let line = scan.line;
    let Some(n) = scan.field().filter(|_| scan.end().is_some()) else {
        return refused(13, line);
    };
    let n = n as usize;
    let tasks = n + 2;
    if tasks > MAX_TASKS {
        return refused(2, 0);
    }
    let mut tables = Tables {
        weights: [0; MAX_TASKS],
        starts: [0; MAX_TASKS + 1],
        preds: [0; MAX_EDGES],
        edges: 0,
    };
    for task in 0..tasks {
        if !scan.find_line() {
            return refused(13, scan.line);
        }
        let line = scan.line;
        if tables.read_task(&mut scan, task, n).is_none() {
            return refused(13, line);
        }
        if tables.edges > MAX_EDGES {
            return refused(2, 0);
        }
    }
    if scan.find_line() {
        return refused(13, scan.line);
    }
    let edges = tables.edges;
    weights[..tasks].copy_from_slice(&tables.weights[..tasks]);
    starts[..=tasks].copy_from_slice(&tables.starts[..=tasks]);
    preds[..edges].copy_from_slice(&tables.preds[..edges]);
    Ok((tasks as u32, edges as u32))
}
