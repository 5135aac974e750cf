//! The reader of task texts in the words of document 01: the text is split into lines, the lines into fields, and then
//! each line is judged.

use crate::model::{refused, word, Refusal, Table, MAX_EDGES, MAX_TASKS};

/// "text over 65,536 bytes"
const MAX_TEXT: usize = 65_536;

/// "Fields are decimal, up to 65,535"
const MAX_FIELD: u32 = 65_535;

/// "one to five digits"
const MAX_DIGITS: usize = 5;

/// "Tasks 0 and n+1 are the dummies": "N = n+2".
const DUMMIES: usize = 2;

/// A task's line without its number and count: "time, […] predecessors".
struct Task {
    time: u32,
    preds: Vec<u32>,
}

/// The lines of the text, without their ends.
///
/// "Lines end in LF or CR LF, the last one optionally." No line follows a final LF, and a CR before no LF belongs to its
/// line (docs/DECISIONS.md).
fn lines(text: &[u8]) -> Vec<&[u8]> {
    let mut pieces: Vec<&[u8]> = text.split(|&byte| byte == b'\n').collect();
    let unended = pieces.pop().filter(|piece| !piece.is_empty());
    let ended = pieces
        .into_iter()
        .map(|piece| piece.strip_suffix(b"\r").unwrap_or(piece));
    ended.chain(unended).collect()
}

/// "parted and surrounded by spaces or tabs"
fn is_blank(byte: u8) -> bool {
    byte == b' ' || byte == b'\t'
}

/// "Blank lines (spaces and tabs alone) and lines whose first mark after those is # are skipped anywhere"
fn is_skipped(line: &[u8]) -> bool {
    let first = line.iter().find(|&&byte| !is_blank(byte));
    matches!(first, None | Some(b'#'))
}

/// The value of one field; none if it isn't one.
///
/// "Fields are decimal, up to 65,535, one to five digits"; leading zeros are fine (docs/DECISIONS.md).
fn field(marks: &[u8]) -> Option<u32> {
    let right = (1..=MAX_DIGITS).contains(&marks.len()) && marks.iter().all(u8::is_ascii_digit);
    let digits = std::str::from_utf8(marks).ok().filter(|_| right)?;
    digits.parse().ok().filter(|&value| value <= MAX_FIELD)
}

/// The values of the line's fields; none unless all of them are fields.
///
/// "Fields are […] parted and surrounded by spaces or tabs."
fn fields(line: &[u8]) -> Option<Vec<u32>> {
    let pieces = line.split(|&byte| is_blank(byte));
    pieces.filter(|piece| !piece.is_empty()).map(field).collect()
}

/// "First line n"
fn first_line(line: &[u8]) -> Option<usize> {
    match fields(line)?.as_slice() {
        &[n] => Some(n as usize),
        _ => None,
    }
}

/// The line of one task.
///
/// "task numbers 0..n+1 rising: number, time, count of predecessors, that many predecessors." "Tasks 0 and n+1 are the
/// dummies: time 0, and task 0 has no predecessors."
fn task_line(line: &[u8], expected: usize, n: usize) -> Option<Task> {
    let values = fields(line)?;
    let &[number, time, count, ref preds @ ..] = values.as_slice() else {
        return None;
    };
    let layout = number == word(expected) && count == word(preds.len());
    let dummy = expected == 0 || expected == n + 1;
    let dummy_right = !dummy || time == 0;
    let first_right = expected != 0 || preds.is_empty();
    let preds = preds.to_vec();
    (layout && dummy_right && first_right).then_some(Task { time, preds })
}

/// The tasks of the text.
///
/// "First line n; then n+2 lines". "Any other line after the last task breaks the layout; a text that ends too early breaks
/// it at its count of lines plus 1." The skipped lines are "still counted".
///
/// "In the reader: 1, text length, then line by line 13, or after it in that line 2, when n is over 1,022 or the edges pass
/// 8,192." 13 has "line, from 1", 2 has 0.
fn tasks(text: &[u8]) -> Result<Vec<Task>, Refusal> {
    let lines = lines(text);
    let numbered = (1..).zip(lines.iter().copied());
    let mut read = numbered.filter(|(_, line)| !is_skipped(line));
    let too_early = word(lines.len() + 1);

    let Some((at, line)) = read.next() else {
        return refused(13, too_early);
    };
    let Some(n) = first_line(line) else {
        return refused(13, at);
    };
    if n + DUMMIES > MAX_TASKS {
        return refused(2, 0);
    }
    let mut tasks = Vec::new();
    let mut edges = 0;
    for number in 0..n + DUMMIES {
        let Some((at, line)) = read.next() else {
            return refused(13, too_early);
        };
        let Some(task) = task_line(line, number, n) else {
            return refused(13, at);
        };
        edges += task.preds.len();
        if edges > MAX_EDGES {
            return refused(2, 0);
        }
        tasks.push(task);
    }
    match read.next() {
        Some((at, _)) => refused(13, at),
        None => Ok(tasks),
    }
}

/// 1: "a lent length isn't the stated one": "The reader is lent 1,024, 1,025 and 8,192 words".
fn lengths_right(weights: &[u32], starts: &[u32], preds: &[u32]) -> bool {
    weights.len() == MAX_TASKS && starts.len() == MAX_TASKS + 1 && preds.len() == MAX_EDGES
}

/// "and writes only those it needs"
fn write(list: &mut [u32], words: &[u32]) {
    list[..words.len()].copy_from_slice(words);
}

/// The reader: N and E, and the three lists filled; refused, "all lent memory keeps its words".
///
/// "In the reader: 1, text length, then line by line 13, or after it in that line 2". "Begin, Start and Complete answer
/// acceptance alone, the reader N and E."
pub fn read(text: &[u8], weights: &mut [u32], starts: &mut [u32], preds: &mut [u32]) -> Result<(u32, u32), Refusal> {
    if !lengths_right(weights, starts, preds) {
        return refused(1, 0);
    }
    if text.len() > MAX_TEXT {
        return refused(2, 0);
    }
    let (times, lists): (Vec<u32>, Vec<Vec<u32>>) =
        tasks(text)?.into_iter().map(|task| (task.time, task.preds)).unzip();
    let table = Table::of(&lists);
    write(weights, &times);
    write(starts, &table.starts);
    write(preds, &table.words);
    Ok((word(times.len()), word(table.words.len())))
}
