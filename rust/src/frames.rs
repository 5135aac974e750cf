//! The cases of the programs `text_trials` and `desk_trials`, and what they have to print. A task text holds any byte, so each
//! is framed by its length.
//!
//! - `# words` is a note, and printed as it stands.
//! - `t` and the length of the text; the lengths of the lent weights, starts and predecessors. The bytes of the text follow
//!   the header's LF at once, then one LF.
//!
//! The answer to a text is one line: `read`, number and detail (`0 0` if accepted), N and E (`0 0` if refused), and after a
//! colon what the three lent lists hold then.
//!
//! For `desk_trials` the header has the length of the text alone, and the answer is what the desk program prints.

use crate::desk;
use crate::model::{MAX_EDGES, MAX_TASKS};
use crate::reader;
use crate::text::{pattern, shown_answer, shown_lent};

/// The lengths that the reader asks for: weights, starts, predecessors.
pub const LENT: [usize; 3] = [MAX_TASKS, MAX_TASKS + 1, MAX_EDGES];

#[derive(Clone, Debug)]
pub enum Frame {
    Note(String),
    Text(TextTrial),
}

#[derive(Clone, Debug)]
pub struct TextTrial {
    pub text: Vec<u8>,
    /// Lengths of the lent weights, starts and predecessors.
    pub lent: [usize; 3],
}

impl TextTrial {
    /// The text, with lent lists of the right lengths.
    pub fn of(text: impl Into<Vec<u8>>) -> TextTrial {
        TextTrial {
            text: text.into(),
            lent: LENT,
        }
    }
}

impl Frame {
    /// What the program reads.
    pub fn case(&self) -> Vec<u8> {
        match self {
            Frame::Note(words) => format!("# {words}\n").into_bytes(),
            Frame::Text(TextTrial { text, lent }) => {
                let [weights, starts, preds] = lent;
                let header = format!("t {} {weights} {starts} {preds}\n", text.len());
                [header.as_bytes(), text, b"\n"].concat()
            }
        }
    }

    /// What the program `desk_trials` reads.
    pub fn desk_case(&self) -> Vec<u8> {
        match self {
            Frame::Note(_) => self.case(),
            Frame::Text(TextTrial { text, .. }) => {
                let header = format!("t {}\n", text.len());
                [header.as_bytes(), text, b"\n"].concat()
            }
        }
    }

    /// What it has to print.
    pub fn desk_answer(&self) -> Vec<u8> {
        match self {
            Frame::Note(_) => self.case(),
            Frame::Text(trial) => desk::output(&trial.text),
        }
    }

    /// The line that the program has to print.
    pub fn answer(&self) -> String {
        match self {
            Frame::Note(words) => format!("# {words}\n"),
            Frame::Text(trial) => text_answer(trial),
        }
    }
}

/// All of the program's input.
pub fn cases(frames: &[Frame]) -> Vec<u8> {
    frames.iter().flat_map(Frame::case).collect()
}

/// All of the program's output.
pub fn answers(frames: &[Frame]) -> String {
    frames.iter().map(Frame::answer).collect()
}

/// The texts alone, without the notes.
pub fn texts(frames: &[Frame]) -> impl Iterator<Item = &TextTrial> {
    frames.iter().filter_map(|frame| match frame {
        Frame::Text(trial) => Some(trial),
        Frame::Note(_) => None,
    })
}

fn text_answer(trial: &TextTrial) -> String {
    let [mut weights, mut starts, mut preds] = trial.lent.map(pattern);
    let answer = reader::read(&trial.text, &mut weights, &mut starts, &mut preds);
    let (n, e) = answer.unwrap_or((0, 0));
    format!(
        "read {} {n} {e} : {} | {} | {}\n",
        shown_answer(answer.map(|_| ())),
        shown_lent(&weights),
        shown_lent(&starts),
        shown_lent(&preds),
    )
}
