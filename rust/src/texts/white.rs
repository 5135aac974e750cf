//! Line ends, blanks, skipped lines, and every byte in every kind of place.

use super::{lines_of, noted, DIAMOND, LEAST};
use crate::frames::Frame;

/// The diamond with the given ends, taken in turn.
fn ended(ends: &[&str]) -> Vec<u8> {
    let lines = DIAMOND.split(|&byte| byte == b'\n').filter(|line| !line.is_empty());
    lines
        .zip(ends.iter().cycle())
        .flat_map(|(line, end)| [line, end.as_bytes()].concat())
        .collect()
}

pub fn ends() -> Vec<Frame> {
    let cut = |text: Vec<u8>, less: usize| text[..text.len() - less].to_vec();
    let (lf, cr_lf) = (ended(&["\n"]), ended(&["\r\n"]));
    [
        noted(
            "ends in LF; in CR LF; mixed",
            [lf.clone(), cr_lf.clone(), ended(&["\n", "\r\n"])],
        ),
        noted(
            "mixed, and blanks at the ends",
            [ended(&["\r\n", "\n", " \r\n", "\t\n"])],
        ),
        noted("without the last end", [cut(lf, 1), cut(cr_lf.clone(), 2)]),
        noted("the last end cut to its CR", [cut(cr_lf, 1)]),
        noted("no line end but CR", [ended(&["\r"])]),
        noted("LF CR", [ended(&["\n\r"])]),
        noted("CR CR LF", [ended(&["\r\r\n"])]),
        noted("CR, blank, LF", [ended(&["\r \n"])]),
        noted(
            "two line ends",
            [ended(&["\n\n"]), ended(&["\r\n\r\n"]), ended(&["\n\r\n"])],
        ),
    ]
    .concat()
}

pub fn carriage_returns() -> Vec<Frame> {
    let least = |insert: &[u8]| [b"0\n0 0 0\n", insert, b"1 0 0\n"].concat();
    let last = |end: &[u8]| [LEAST, end].concat();
    [
        noted(
            "a CR in the middle of a line",
            [
                &b"0\r0\n0 0 0\n1 0 0\n"[..],
                b"0\n0\r0 0\n1 0 0\n",
                b"0\n0 \r0 0\n1 0 0\n",
                b"0\n0 0 0\n\r1 0 0\n",
            ],
        ),
        noted(
            "a CR at the end of a line that has its end",
            [
                &b"0\r\r\n0 0 0\n1 0 0\n"[..],
                b"0\n0 0 0 \r\r\n1 0 0\n",
                b"0\n0 0 0\n1 0 0\r\r\n",
            ],
        ),
        noted(
            "a CR at the end of the text",
            [&last(b"\r")[..], &last(b" \r"), &last(b"\n\r"), &last(b"\r\n\r"), b"\r"],
        ),
        noted(
            "a CR in a line of its own",
            [
                &least(b"\r\n")[..],
                &least(b"\r\r\n"),
                &least(b" \r \r\n"),
                &least(b"\t\r\n"),
                &least(b"\r\t\n"),
            ],
        ),
        noted(
            "a CR in a comment: inside, twice at its end, at the end of the text",
            [
                &least(b"#a\rb\n")[..],
                &least(b"#\r\r\n"),
                &least(b"# \r \n"),
                &last(b"\n#\r"),
                &last(b"\n#\r\r"),
                b"#\r",
            ],
        ),
        noted(
            "a CR before the mark of a comment",
            [&least(b"\r#\n")[..], &least(b" \r#\n"), &last(b"\n\r#")],
        ),
    ]
    .concat()
}

/// A skipped line before each line of the diamond, and after the last, with and without its end.
fn skipping(skipped: &[u8]) -> Vec<Vec<u8>> {
    let lines = lines_of(DIAMOND);
    let at = |place: usize| {
        let (before, after) = lines.split_at(place);
        [&before.concat(), skipped, b"\n", &after.concat()].concat()
    };
    let mut texts: Vec<_> = (0..=lines.len()).map(at).collect();
    texts.push([DIAMOND, skipped].concat());
    texts.push(lines.iter().flat_map(|line| [skipped, b"\n", line].concat()).collect());
    texts
}

pub fn skipped() -> Vec<Frame> {
    [
        noted("an empty line", skipping(b"")),
        noted("a blank line", skipping(b" \t ")),
        noted("a blank line in CR LF", skipping(b"\t\r")),
        noted("a comment", skipping(b"# 7 words, 3 0 2 1 2")),
        noted("a comment after blanks", skipping(b"\t #")),
        noted("comments of every byte", skipping(&comment())),
        noted(
            "comments and blank lines alone",
            [&b"#"[..], b"#\n", b" \n#\n\t", b"#\n#\n\n", b"# 0\r\n", b"\n\n\n"],
        ),
        noted(
            "the mark of a comment after a field",
            [
                &b"0 # n\n0 0 0\n1 0 0\n"[..],
                b"0\n0 0 0#\n1 0 0\n",
                b"0\n0 0 0\n1 0 0 #\n",
                b"0\n0 0 0\n1 #0 0\n",
            ],
        ),
        noted(
            "skipped lines are counted",
            [
                &b"\n#\n\nx\n"[..],
                b"#\r\n0\n \n0 0 0\n\n1 0 1\n",
                b"\n\n0\n#\n0 0 0\n#\n",
                b"0\n0 0 0\n1 0 0\n#\n\n0\n",
            ],
        ),
    ]
    .concat()
}

/// Every byte but LF behind a #.
fn comment() -> Vec<u8> {
    let bytes = (0..=255).filter(|&byte| byte != b'\n');
    std::iter::once(b'#').chain(bytes).collect()
}

/// Every byte in a line of its own, behind a field, in a comment, and at the end of the text.
pub fn every_byte() -> Vec<Frame> {
    let with = |before: &[u8], after: &[u8]| -> Vec<Vec<u8>> {
        (0..=255).map(|byte| [before, &[byte], after].concat()).collect()
    };
    [
        noted("every byte in a line of its own", with(b"0\n0 0 0\n", b"\n1 0 0")),
        noted("every byte behind a field", with(b"0\n0 0", b" 0\n1 0 0")),
        noted("every byte in a comment", with(b"#", b"\n0\n0 0 0\n1 0 0")),
        noted("every byte at the end", with(LEAST, b"")),
    ]
    .concat()
}
