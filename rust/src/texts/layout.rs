//! Lines that are missing, doubled, exchanged or too many, wrong task numbers, and the dummies.

use super::{lines_of, noted, DIAMOND};
use crate::frames::Frame;

pub fn lines() -> Vec<Frame> {
    let lines = lines_of(DIAMOND);
    let places = 0..lines.len();
    let without = |at: usize| [lines[..at].concat(), lines[at + 1..].concat()].concat();
    let twice = |at: usize| [lines[..=at].concat(), lines[at..].concat()].concat();
    let exchanged = |at: usize| {
        let mut lines = lines.clone();
        lines.swap(at - 1, at);
        lines.concat()
    };
    let cut = |length: usize| DIAMOND[..length].to_vec();
    let with = |line: &[u8]| [DIAMOND, line].concat();
    let junk: [&[u8]; 12] = [
        b"0",
        b"4 0 0",
        b"4 0 0\n",
        b"3 0 2 1 2\n",
        b"x",
        b"\0",
        b"\r",
        b" \r\r\n",
        b"\n\n0",
        b"#\n-",
        b"\x0c\n",
        b"\x0b",
    ];
    [
        noted("a line is missing", places.clone().map(without)),
        noted("a line twice", places.map(twice)),
        noted("two lines exchanged", (1..lines.len()).map(exchanged)),
        noted("the text is cut", (0..DIAMOND.len()).map(cut)),
        noted("a further line", junk.map(with)),
        noted(
            "a wrong task number",
            [
                &b"0\n1 0 0\n1 0 0\n"[..],
                b"0\n0 0 0\n0 0 0\n",
                b"0\n0 0 0\n2 0 0\n",
                b"1\n0 0 0\n2 0 0\n1 0 0\n",
            ],
        ),
        noted(
            "n too small and too great",
            [
                &b"1\n0 0 0\n1 5 1 0\n2 3 1 0\n3 0 2 1 2\n"[..],
                b"3\n0 0 0\n1 5 1 0\n2 3 1 0\n3 0 2 1 2\n",
            ],
        ),
        noted(
            "two lines are wrong: the first one counts",
            [
                &b"1\n0 0 1\n1 0 x\n2 0 0\n"[..],
                b"1\n0 0 0\n1 0 x\n2 0 1\n",
                b"x\n0 0 0\n1 0\n",
                b"0\n0 0\n1 0 0\n3\n",
            ],
        ),
    ]
    .concat()
}

pub fn dummies() -> Vec<Frame> {
    [
        noted(
            "task 0 with a time",
            [
                &b"0\n0 1 0\n1 0 0\n"[..],
                b"1\n0 65535 0\n1 5 0\n2 0 0\n",
                b"0\n0 00 0\n1 0 0\n",
            ],
        ),
        noted(
            "task 0 with predecessors",
            [&b"0\n0 0 1 0\n1 0 0\n"[..], b"1\n0 0 2 1 2\n1 5 0\n2 0 0\n"],
        ),
        noted(
            "the last task with a time",
            [&b"0\n0 0 0\n1 1 0\n"[..], b"1\n0 0 0\n1 5 0\n2 9 1 1\n"],
        ),
        noted(
            "the last task with predecessors and without",
            [
                &b"0\n0 0 0\n1 0 1 0\n"[..],
                b"1\n0 0 0\n1 5 0\n2 0 2 0 1\n",
                b"1\n0 0 0\n1 5 1 0\n2 0 0\n",
            ],
        ),
        noted(
            "predecessors that begin refuses: itself, N, twice, 65,535",
            [
                &b"0\n0 0 0\n1 0 1 1\n"[..],
                b"0\n0 0 0\n1 0 1 2\n",
                b"0\n0 0 0\n1 0 2 0 0\n",
                b"0\n0 0 0\n1 0 1 65535\n",
            ],
        ),
        noted("a task between with no time", [b"1\n0 0 0\n1 0 0\n2 0 0\n"]),
    ]
    .concat()
}
