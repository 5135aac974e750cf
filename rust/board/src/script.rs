//! A lesson by keys from a file, told as a transcript.

use crate::board::{Board, Flow};
use crate::keys::{named, Key, NoKey};
use crate::kind::Kind;
use crate::screen::frame;
use std::fmt;

/// What stands before each frame of a transcript, with the keys that led to it.
pub const MARK: &str = "==> ";

/// A line that names no keys.
#[derive(Clone, Debug, PartialEq, Eq)]
pub struct BadLine {
    /// The line, counted from 1.
    pub line: usize,
    /// What is wrong.
    pub reason: NoKey,
}

impl fmt::Display for BadLine {
    fn fmt(&self, to: &mut fmt::Formatter<'_>) -> fmt::Result {
        write!(to, "line {}: {}", self.line, self.reason)
    }
}

/// The frame after begin and after each line of keys, up to a key that quits. Lines that begin with # are told as they
/// stand, blank ones are skipped.
///
/// # Errors
///
/// The first line that names no keys; then no key is pressed.
pub fn transcript<C: Kind>(board: &mut Board<C>, keys: &str) -> Result<String, BadLine> {
    let parsed = keys
        .lines()
        .enumerate()
        .map(|(place, line)| {
            parse(line).map_err(|reason| BadLine {
                line: place + 1,
                reason,
            })
        })
        .collect::<Result<Vec<_>, _>>()?;
    let mut told = format!("{MARK}begin\n{}", whole(board));
    for (keys, line) in parsed.into_iter().zip(keys.lines()) {
        match keys {
            None => told.push_str(&format!("{}\n", line.trim_end())),
            Some(keys) if keys.is_empty() => {}
            Some(keys) => {
                let ended = keys.into_iter().any(|key| board.press(key) == Flow::Quit);
                told.push_str(&format!("{MARK}{}\n", line.trim()));
                if ended {
                    return Ok(told + "quit\n");
                }
                told.push_str(&whole(board));
            }
        }
    }
    Ok(told)
}

/// The keys of a line; None for a comment.
fn parse(line: &str) -> Result<Option<Vec<Key>>, NoKey> {
    match line.trim_start().starts_with('#') {
        true => Ok(None),
        false => named(line).map(Some),
    }
}

/// The frame with all lanes, however many rows that takes.
fn whole<C: Kind>(board: &Board<C>) -> String {
    frame(board, usize::MAX)
}
