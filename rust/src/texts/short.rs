//! The examples of document 01, every text of a few bytes, and every small change of the least text that is accepted.

use super::{noted, replaced, DIAMOND, LEAST};
use crate::frames::Frame;

/// The marks that the layout tells apart, and one that it doesn't know.
const MARKS: &[u8] = b"01 \t\n\r#x";

pub fn examples() -> Vec<Frame> {
    [
        noted("the diamond of the desk program", [DIAMOND]),
        noted(
            "example 13: line \"1 5 2 0\"",
            [
                &b"2\n0 0 0\n1 5 2 0\n2 3 1 0\n3 0 2 1 2\n"[..],
                b"1 5 2 0",
                b"1 5 2 0\n",
            ],
        ),
        noted(
            "no text; a lone LF; two lines of three",
            [&b""[..], b"\n", b"0\n0 0 0", b"0\n0 0 0\n"],
        ),
        noted("the least text, without and with its last LF", [LEAST, &with_lf()]),
    ]
    .concat()
}

fn with_lf() -> Vec<u8> {
    [LEAST, b"\n"].concat()
}

/// Every text of the marks, of this length.
fn every_text(length: u32) -> Vec<Vec<u8>> {
    let count = MARKS.len();
    let text = |number: usize| {
        (0..length)
            .map(|place| MARKS[number / count.pow(place) % count])
            .collect()
    };
    (0..count.pow(length)).map(text).collect()
}

pub fn every_short() -> Vec<Frame> {
    noted("every text of up to three marks", (0..=3).flat_map(every_text))
}

/// One mark put in at every place, in the place of every byte, and every byte taken out; up to two marks before and after.
pub fn around_least() -> Vec<Frame> {
    let text = with_lf();
    let places = 0..text.len();
    let put = |width: usize| {
        let text = &text;
        move |at: usize| MARKS.iter().map(move |&mark| replaced(text, at, at + width, &[mark]))
    };
    let before = every_text(2).into_iter().map(|marks| [&marks, LEAST].concat());
    let after = (1..=2).flat_map(every_text).map(|marks| [LEAST, &marks].concat());
    let later = (1..=2).flat_map(every_text).map(|marks| [&text, &marks[..]].concat());
    [
        noted("the least text, a mark put in", places.clone().flat_map(put(0))),
        noted("the least text, a mark exchanged", places.clone().flat_map(put(1))),
        noted(
            "the least text, a byte taken out",
            places.map(|at| replaced(&text, at, at + 1, b"")),
        ),
        noted("the least text, marks before it", before),
        noted("the least text, marks after it", after),
        noted("the least text, marks after its last LF", later),
    ]
    .concat()
}
