//! What a refused text says of itself, for the words of its refusal: its n, its task lines, its predecessors.

use crate::limits::{Limit, MAX_EDGES, MAX_TASKS, MAX_TEXT};
use crate::refusal::Refusal;

/// A line's fields, parted and surrounded by spaces or tabs; before its LF may stand a CR.
fn fields(line: &[u8]) -> impl Iterator<Item = &[u8]> {
    let parts = line.split(|mark| matches!(mark, b' ' | b'\t' | b'\r'));
    parts.filter(|field| !field.is_empty())
}

/// The lines that count, blank ones and comments left out, each with its number from 1.
fn lines(text: &[u8]) -> impl Iterator<Item = (u32, &[u8])> + Clone {
    let lines = (1..).zip(text.split(|&mark| mark == b'\n'));
    lines.filter(|(_, line)| fields(line).next().is_some_and(|first| !first.starts_with(b"#")))
}

/// A field of a line: of a task's line, its number, its time, how many predecessors it has.
fn field(line: &[u8], place: usize) -> Option<usize> {
    std::str::from_utf8(fields(line).nth(place)?).ok()?.parse().ok()
}

/// 13: "a text that ends too early breaks it at its count of lines plus 1".
pub(crate) fn layout_refused(text: &[u8], line: u32) -> Refusal {
    let ended = text.iter().filter(|&&mark| mark == b'\n').count();
    let open = text.last().is_some_and(|&mark| mark != b'\n');
    match line as usize > ended + usize::from(open) {
        true => ended_early(text, line),
        false if lines(text).next().is_some_and(|(first, _)| first == line) => Refusal::BadFirstLine { line },
        false => Refusal::BadLayout { line },
    }
}

/// "First line n; then n+2 lines": the lines that are there keep the layout.
fn ended_early(text: &[u8], line: u32) -> Refusal {
    let mut lines = lines(text);
    let n = lines.next().and_then(|(_, first)| field(first, 0));
    let found = lines.clone().count();
    // of a whole text the last task is a dummy, which takes no time
    let dummy = lines.last().is_some_and(|(_, last)| field(last, 1) == Some(0));
    Refusal::TextEnds {
        line,
        expected: n.map(|n| n.saturating_add(2)),
        found,
        whole: found.checked_sub(2).filter(|_| dummy),
    }
}

/// 2: the bytes, "when n is over 1,022 or the edges pass 8,192".
pub(crate) fn limit(text: &[u8]) -> Limit {
    if text.len() > MAX_TEXT {
        return Limit::Text { bytes: text.len() };
    }
    let mut lines = lines(text);
    let n = lines.next().and_then(|(_, first)| field(first, 0)).unwrap_or(0);
    match n.saturating_add(2) {
        tasks if tasks > MAX_TASKS => Limit::TextTasks { tasks },
        _ => edges_limit(lines),
    }
}

/// The task line with which the predecessors pass their limit.
fn edges_limit<'a>(lines: impl Iterator<Item = (u32, &'a [u8])>) -> Limit {
    let passing = lines.scan(0_usize, |edges, (line, task)| {
        *edges = edges.saturating_add(field(task, 2).unwrap_or(0));
        Some((line, *edges > MAX_EDGES))
    });
    let line = passing.filter(|&(_, passed)| passed).map(|(line, _)| line).next();
    line.map_or(Limit::Unknown, |line| Limit::TextEdges { line })
}
