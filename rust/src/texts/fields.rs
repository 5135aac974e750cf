//! Spellings of a field, in every field of a text, and lines of too few or too many fields.

use super::{lines_of, noted, replaced};
use crate::frames::Frame;

/// A text whose every field may be spelled in other ways.
const BASE: &[u8] = b"1\n0 0 0\n1 5 1 0\n2 0 1 1\n";

const SPELLINGS: [&[u8]; 34] = [
    b"0",
    b"1",
    b"00",
    b"01",
    b"00000",
    b"00001",
    b"000000",
    b"000001",
    b"5",
    b"00005",
    b"000005",
    b"9",
    b"10",
    b"65535",
    b"65536",
    b"99999",
    b"065535",
    b"100000",
    b"4294967296",
    b"4294967297",
    b"18446744073709551617",
    b"+1",
    b"-1",
    b"-0",
    b"1.0",
    b"1.",
    b"0x1",
    b"1e0",
    b"1_0",
    b"1,0",
    b"I",
    b"\xb9",
    b"\xd9\xa1",
    b"1\0",
];

/// From where to where each field runs.
fn places(text: &[u8]) -> Vec<(usize, usize)> {
    let mut places = Vec::new();
    let mut from = 0;
    for field in text.split(|byte| !byte.is_ascii_digit()) {
        if !field.is_empty() {
            places.push((from, from + field.len()));
        }
        from += field.len() + 1;
    }
    places
}

pub fn every_spelling() -> Vec<Frame> {
    let in_field = |(from, to): (usize, usize)| SPELLINGS.map(|spelling| replaced(BASE, from, to, spelling));
    noted(
        "every field of a text in every spelling",
        places(BASE).into_iter().flat_map(in_field),
    )
}

/// Each field taken out with its blank; each doubled; one joined to the next; a field before and after each line.
pub fn counts() -> Vec<Frame> {
    let places = places(BASE);
    let out = places.iter().map(|&(from, to)| replaced(BASE, from, to, b""));
    let twice = places.iter().map(|&(from, to)| {
        let field = [b" ", &BASE[from..to]].concat();
        replaced(BASE, to, to, &field)
    });
    let joined = places.iter().map(|&(_, to)| replaced(BASE, to, to + 1, b""));
    let parted = places.iter().map(|&(_, to)| replaced(BASE, to, to + 1, b"\n"));
    let lines = lines_of(BASE);
    let more = |before: &'static [u8], after: &'static [u8]| {
        let lines = &lines;
        (0..lines.len()).map(move |at| {
            let line = lines[at].strip_suffix(b"\n").unwrap_or(lines[at]);
            [
                &lines[..at].concat(),
                before,
                line,
                after,
                b"\n",
                &lines[at + 1..].concat(),
            ]
            .concat()
        })
    };
    [
        noted("a field taken out", out),
        noted("a field twice", twice),
        noted("a field joined to the next one or to the next line", joined),
        noted("a line parted behind a field", parted),
        noted("a field more at the end of a line", more(b"", b" 0")),
        noted("a field more at the start of a line", more(b"0 ", b"")),
        noted("junk at the end of a line", more(b"", b" x")),
        noted("blanks around a line", more(b" \t", b"\t  ")),
    ]
    .concat()
}
