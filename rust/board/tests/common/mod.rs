//! The stories: a job, its numbers, and the keys with their stored transcript.

// each test uses a part of it
#![allow(dead_code)]

use std::fs;
use std::path::PathBuf;

pub const BOARD: &str = env!("CARGO_BIN_EXE_yolluvek-board");

/// A story whose last keys are F4, 12, Enter, Escape and q.
#[derive(Clone, Copy, Debug)]
pub struct Story {
    pub text: &'static str,
    pub workers: usize,
    pub slots: usize,
    pub keys: &'static str,
    /// N and E of the text.
    pub size: (usize, usize),
    /// What lane twelve is refused with.
    pub refused: &'static str,
}

pub const STORIES: [Story; 3] = [
    Story {
        text: "../../../examples/diamond.stg",
        workers: 3,
        slots: 4,
        keys: "refusal-7",
        size: (4, 4),
        refused: "REFUSED 7, detail 12",
    },
    Story {
        text: "strips.stg",
        workers: 13,
        slots: 2,
        keys: "refusal-10",
        size: (40, 27),
        refused: "REFUSED 10, detail 0",
    },
    Story {
        text: "strips.stg",
        workers: 13,
        slots: 2,
        keys: "refusal-11",
        size: (40, 27),
        refused: "REFUSED 11, detail 39",
    },
];

pub fn folder() -> PathBuf {
    PathBuf::from(env!("CARGO_MANIFEST_DIR")).join("transcripts")
}

impl Story {
    /// The board's arguments but `--keys`, from the transcripts' folder.
    pub fn arguments(self) -> [String; 3] {
        [self.text.to_owned(), self.workers.to_string(), self.slots.to_string()]
    }

    pub fn keys(self) -> String {
        read(&format!("{}.keys", self.keys))
    }

    pub fn stored(self) -> String {
        read(&format!("{}.transcript", self.keys))
    }

    /// The number of lent words, by document 01's list of them; of each ring's ends three.
    pub fn words(self) -> usize {
        let ((n, e), p, k) = (self.size, self.workers, self.slots);
        let tables = n + (n + 1) + e + (n + 1) + e + n;
        tables + p * p * k + 3 * p * p + p * p + p * n + 2 * n + 2 + 6 * p
    }
}

fn read(name: &str) -> String {
    fs::read_to_string(folder().join(name)).expect(name)
}

/// The keys and the frame of each part of a transcript; comments are no part of a frame.
pub fn frames(transcript: &str) -> Vec<(&str, String)> {
    let mut frames: Vec<(&str, String)> = Vec::new();
    for line in transcript.lines() {
        match (line.strip_prefix(yolluvek_board::script::MARK), frames.last_mut()) {
            (Some(keys), _) => frames.push((keys, String::new())),
            (None, Some((_, frame))) if !line.starts_with('#') => {
                frame.push_str(line);
                frame.push('\n');
            }
            _ => {}
        }
    }
    frames
}
