//! Task texts, from fixed seeds: examples of document 01, every short text, every kind of line end, field, byte and layout,
//! the limits, random texts, and each of those damaged at one place.

pub mod bench;
pub mod desk;
mod fields;
mod layout;
mod limits;
mod random;
mod short;
mod spell;
mod white;

use crate::draw::Draw;
use crate::frames::{Frame, TextTrial};

/// Every case, in the order of the files.
pub fn all() -> Vec<Frame> {
    [
        short::examples(),
        short::every_short(),
        short::around_least(),
        white::ends(),
        white::carriage_returns(),
        white::skipped(),
        white::every_byte(),
        fields::every_spelling(),
        fields::counts(),
        layout::lines(),
        layout::dummies(),
        limits::tasks(),
        limits::edges(),
        limits::bytes(),
        limits::lengths(),
        random::columns(),
        random::valid(),
        random::damaged(),
    ]
    .concat()
}

/// Further texts, which are not stored.
pub fn further(seed: u64, count: usize) -> Vec<TextTrial> {
    let mut draw = Draw::new(seed);
    (0..count).map(|_| random::further(&mut draw)).collect()
}

/// The text of the desk program's diamond.
pub(crate) const DIAMOND: &[u8] = b"2\n0 0 0\n1 5 1 0\n2 3 1 0\n3 0 2 1 2\n";

/// The least text that is accepted.
const LEAST: &[u8] = b"0\n0 0 0\n1 0 0";

/// A note with the texts that it speaks of.
fn noted<T: Into<Vec<u8>>>(words: &str, texts: impl IntoIterator<Item = T>) -> Vec<Frame> {
    noted_trials(words, texts.into_iter().map(TextTrial::of))
}

/// A note with texts and the lengths of their lent lists.
fn noted_trials(words: &str, trials: impl IntoIterator<Item = TextTrial>) -> Vec<Frame> {
    let mut list = vec![Frame::Note(String::from(words))];
    list.extend(trials.into_iter().map(Frame::Text));
    list
}

/// The lines of a text, each with its end.
fn lines_of(text: &[u8]) -> Vec<&[u8]> {
    text.split_inclusive(|&byte| byte == b'\n').collect()
}

/// The text with some bytes of it replaced by others.
fn replaced(text: &[u8], from: usize, to: usize, by: &[u8]) -> Vec<u8> {
    [&text[..from], by, &text[to..]].concat()
}
