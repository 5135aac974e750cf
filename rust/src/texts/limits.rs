//! Texts at the limits on n, edges and bytes, and lent lists of other lengths.

use super::spell::{filled, largest, plain};
use super::{lines_of, noted, noted_trials, DIAMOND};
use crate::frames::{Frame, TextTrial, LENT};
use crate::model::{MAX_EDGES, MAX_TASKS};

const MAX_TEXT: usize = 65_536;

/// n tasks and the dummies, without an edge.
fn loose(n: usize) -> Vec<u8> {
    plain(&(0..n + 2).map(|_| (0, Vec::new())).collect())
}

pub fn tasks() -> Vec<Frame> {
    let most = loose(MAX_TASKS - 2);
    let lines = lines_of(&most);
    let cut = lines[..lines.len() - 1].concat();
    let over = |n: &str, rest: &[u8]| [n.as_bytes(), rest].concat();
    let rest: &[u8] = b"\n0 0 0\n1 0 0\n";
    [
        noted("n 1,022", [most.clone()]),
        noted(
            "n 1,022, the last line missing; a line too many",
            [cut, [&most, &b"1024 0 0\n"[..]].concat()],
        ),
        noted(
            "n 1,022 to 65,536 before too few lines",
            [
                "1022", "1023", "01023", "1024", "9999", "65534", "65535", "65536", "99999", "001023",
            ]
            .map(|n| over(n, rest)),
        ),
        noted(
            "n 1,023 alone",
            [&b"1023"[..], b"1023\n", b" 1023\t\r\n", b"#\n\n1023\n"],
        ),
        noted("n 1,023 before a broken line", [&b"1023\nx\n"[..], b"1023\n0 0 0 0\n"]),
        noted(
            "n 1,023 in a broken line",
            [
                &b"1023 0\n"[..],
                b"1023x\n",
                b"1023\r",
                b"1023 #\n",
                b"#\n65535 65536\n",
            ],
        ),
    ]
    .concat()
}

/// Two tasks between the dummies, these counts of predecessors behind task 0, and more marks in the last line.
fn counted(counts: [usize; 3], last: &str) -> Vec<u8> {
    let preds = |count: usize| (0..count).map(|i| format!(" {}", i % 10)).collect::<String>();
    let [a, b, c] = counts;
    format!(
        "2\n0 0 0\n1 1 {a}{}\n2 2 {b}{}\n3 0 {c}{}{last}\n",
        preds(a),
        preds(b),
        preds(c),
    )
    .into_bytes()
}

/// The text with the first of these words in it exchanged.
fn exchanged(text: &[u8], words: &str, by: &str) -> Vec<u8> {
    let at = text.windows(words.len()).position(|part| part == words.as_bytes());
    let at = at.expect("the words are there");
    super::replaced(text, at, at + words.len(), by.as_bytes())
}

pub fn edges() -> Vec<Frame> {
    let passed = counted([8_191, 1, 1], "");
    let full = counted([8_000, 192, 0], "");
    [
        noted(
            "8,192 edges: in three tasks, in the last",
            [counted([8_000, 190, 2], ""), counted([0, 0, MAX_EDGES], "")],
        ),
        noted(
            "8,193 edges: in three tasks, in the last",
            [passed.clone(), counted([0, 0, MAX_EDGES + 1], "")],
        ),
        noted(
            "the line that passes 8,192 is broken itself: its last field, one field more, its number",
            [
                counted([8_191, 1, 2], "x"),
                counted([0, 0, MAX_EDGES + 1], " 0"),
                exchanged(&passed, "\n3 0 1", "\n4 0 1"),
            ],
        ),
        noted(
            "a count of 8,193 and one field less",
            [exchanged(&counted([0, 0, MAX_EDGES], ""), "8192", "8193")],
        ),
        noted(
            "a great count before few fields",
            [&b"0\n0 0 0\n1 0 65535 0\n"[..], b"0\n0 0 0\n1 0 8193\n"],
        ),
        noted(
            "8,193 edges before a broken line",
            [exchanged(&counted([1, 8_192, 0], ""), "\n3 0 0", "\n3 0 x")],
        ),
        noted(
            "8,192 edges before a broken line",
            [exchanged(&full, "\n3 0 0", "\n3 0 x")],
        ),
    ]
    .concat()
}

/// 1,024 tasks and 8,192 edges, and a comment behind them up to this length.
fn longest(length: usize) -> Vec<u8> {
    filled(plain(&largest(20, MAX_EDGES)), length)
}

pub fn bytes() -> Vec<Frame> {
    [
        noted("65,536 bytes, 1,024 tasks and 8,192 edges", [longest(MAX_TEXT)]),
        noted("65,537 bytes", [longest(MAX_TEXT + 1)]),
        noted("65,536 empty lines", [vec![b'\n'; MAX_TEXT]]),
    ]
    .concat()
}

pub fn lengths() -> Vec<Frame> {
    let [w, s, p] = LENT;
    let wrong = [
        [w - 1, s, p],
        [w + 1, s, p],
        [w, s - 1, p],
        [w, s + 1, p],
        [w, s, p - 1],
        [w, s, p + 1],
        [0, s, p],
        [w, 0, p],
        [w, s, 0],
        [0, 0, 0],
        [4, 5, 4],
        [s, w, p],
        [p, s, w],
        [w - 1, s + 1, p],
        [1, 1, 1],
    ];
    let lent = |text: &[u8]| {
        wrong.map(|lent| TextTrial {
            text: text.to_vec(),
            lent,
        })
    };
    let long = TextTrial {
        text: vec![b'x'; MAX_TEXT + 1],
        lent: wrong[0],
    };
    [
        noted_trials("wrong lengths, the diamond", lent(DIAMOND)),
        noted_trials("wrong lengths before a broken text", lent(b"x")),
        noted_trials("wrong lengths before n 1,023", lent(b"1023")),
        noted_trials("a wrong length before a text of 65,537 bytes", [long]),
    ]
    .concat()
}
