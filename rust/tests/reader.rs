//! Document 01's examples and edges of the task text, each expected value reasoned from the paper's words.

use engine_model::model::Refusal;
use engine_model::reader::read;

/// A word that no call would write.
const MARK: u32 = 777_777;
const LENT: [usize; 3] = [1_024, 1_025, 8_192];

type Answer = Result<(u32, u32), Refusal>;

fn refused(number: u32, detail: u32) -> Answer {
    Err(Refusal { number, detail })
}

/// The answer and the three lists, every word the mark before the call.
fn outcome(text: &[u8], lent: [usize; 3]) -> (Answer, [Vec<u32>; 3]) {
    let [mut weights, mut starts, mut preds] = lent.map(|length| vec![MARK; length]);
    let answer = read(text, &mut weights, &mut starts, &mut preds);
    (answer, [weights, starts, preds])
}

/// The text is refused so, and every mark stays.
fn assert_refused(text: impl AsRef<[u8]>, number: u32, detail: u32) {
    let text = text.as_ref();
    let (answer, lists) = outcome(text, LENT);
    let shown = text[..text.len().min(100)].escape_ascii();
    assert_eq!(answer, refused(number, detail), "{shown}");
    assert!(lists.iter().flatten().all(|&word| word == MARK), "{shown}");
}

/// The text is accepted, and the lists begin with these words and hold marks behind them.
fn assert_read(text: impl AsRef<[u8]>, weights: &[u32], starts: &[u32], preds: &[u32]) {
    let text = text.as_ref();
    let (answer, lists) = outcome(text, LENT);
    let shown = text[..text.len().min(100)].escape_ascii();
    assert_eq!(answer, Ok((weights.len() as u32, preds.len() as u32)), "{shown}");
    for (list, words) in lists.iter().zip([weights, starts, preds]) {
        assert_eq!(&list[..words.len()], words, "{shown}");
        assert!(list[words.len()..].iter().all(|&word| word == MARK), "{shown}");
    }
}

/// The text is read as that of n 0: two dummies without an edge.
fn assert_least(text: impl AsRef<[u8]>) {
    assert_read(text, &[0, 0], &[0, 0, 0], &[]);
}

fn assert_diamond(text: impl AsRef<[u8]>) {
    assert_read(text, &[0, 5, 3, 0], &[0, 0, 1, 2, 4], &[0, 0, 1, 2]);
}

const DIAMOND: &str = "2\n0 0 0\n1 5 1 0\n2 3 1 0\n3 0 2 1 2\n";

/// n tasks between the dummies, all without an edge.
fn loose(n: usize) -> String {
    let tasks: String = (0..n + 2).map(|task| format!("{task} 0 0\n")).collect();
    format!("{n}\n{tasks}")
}

/// A line of this task with `count` predecessors 7, and the LF.
fn line(task: usize, count: usize) -> String {
    format!("{task} 0 {count}{}\n", " 7".repeat(count))
}

/// "Input lines `2`, `0 0 0`, `1 5 1 0`, `2 3 1 0`, `3 0 2 1 2`".
#[test]
fn the_desk_program_s_diamond() {
    assert_diamond(DIAMOND);
}

/// Row 13: line "1 5 2 0", which has one predecessor less than its count; "line, from 1".
#[test]
fn row_13_example() {
    assert_refused("2\n0 0 0\n1 5 2 0\n2 3 1 0\n3 0 2 1 2\n", 13, 3);
    assert_refused("1 5 2 0", 13, 1);
}

/// "a text that ends too early breaks it at its count of lines plus 1"; no line is behind a final LF.
#[test]
fn texts_that_end_too_early() {
    assert_refused("", 13, 1);
    assert_refused("\n", 13, 2);
    assert_refused("\r\n", 13, 2);
    assert_refused("0", 13, 2);
    assert_refused("0\n", 13, 2);
    assert_refused("0\n0 0 0", 13, 3);
    assert_refused("0\n0 0 0\n", 13, 3);
    assert_refused("0\n0 0 0\n\n", 13, 4);
    assert_refused("0\n0 0 0\n ", 13, 4);
    assert_refused("0\n0 0 0\n#", 13, 4);
    assert_refused("#\n#\n#", 13, 4);
    assert_refused(&DIAMOND[..DIAMOND.len() - 10], 13, 5);
}

/// A line more than 16 bits count: 65,536 empty lines.
#[test]
fn line_65_537() {
    assert_refused("\n".repeat(65_536), 13, 65_537);
    assert_refused("\n".repeat(65_535) + "x", 13, 65_536);
}

/// "Lines end in LF or CR LF, the last one optionally."
#[test]
fn line_ends() {
    assert_diamond(DIAMOND.trim_end());
    assert_diamond(DIAMOND.replace('\n', "\r\n"));
    assert_diamond(DIAMOND.replace('\n', "\r\n").trim_end());
    assert_diamond(DIAMOND.replacen('\n', "\r\n", 2));
    assert_diamond(DIAMOND.replace('\n', " \t\r\n"));
}

/// A CR is no line end, wherever it stands without an LF behind it.
#[test]
fn lone_carriage_returns() {
    assert_refused("\r", 13, 1);
    assert_refused("0\r0 0 0\r1 0 0\r", 13, 1);
    assert_refused("0\n0 0 0\n1 0 0\r", 13, 3);
    assert_refused("0\n0 0 0\n1 0 0\n\r", 13, 4);
    assert_refused("0\n0 0 0\r\r\n1 0 0\n", 13, 2);
    assert_refused("0\n0\r0 0\n1 0 0\n", 13, 2);
    assert_refused("0\n0 \r 0 0\n1 0 0\n", 13, 2);
    assert_refused("0\n\r \n0 0 0\n1 0 0\n", 13, 2);
    assert_refused("\r#\n0\n0 0 0\n1 0 0\n", 13, 1);
    assert_least("0\n\r\n0 0 0\n \r\n1 0 0\n");
}

/// "Blank lines (spaces and tabs alone) and lines whose first mark after those is # are skipped anywhere and still counted."
#[test]
fn skipped_lines() {
    assert_least("\n \n\t\n#\n0\n \t #x\n\n0 0 0\n#\n1 0 0\n#\n\n");
    assert_least("0\n0 0 0\n1 0 0\n#");
    assert_least("0\n0 0 0\n1 0 0\n \t");
    assert_refused("\n#\n\n0 0\n", 13, 4);
    assert_refused("#\n0\n\n0 0 0\n#\n1 0 x\n", 13, 6);
    assert_refused("#\n0\n\n0 0 0\n#\n", 13, 6);
}

/// In a comment any byte is fine, a CR too.
#[test]
fn any_byte_in_a_comment() {
    let bytes: Vec<u8> = (0..=255).filter(|&byte| byte != b'\n').collect();
    assert_least([b"#", bytes.as_slice(), b"\n0\n0 0 0\n1 0 0\n"].concat());
    assert_least("0\n0 0 0\n1 0 0\n#\r");
    assert_least("#a\rb\r\r\n0\n0 0 0\n1 0 0\n");
}

/// "whose first mark after those is #": not behind a field.
#[test]
fn no_comment_behind_a_field() {
    assert_refused("0 # n\n0 0 0\n1 0 0\n", 13, 1);
    assert_refused("0\n0 0 0#\n1 0 0\n", 13, 2);
}

/// "parted and surrounded by spaces or tabs"
#[test]
fn blanks() {
    assert_diamond(" 2\t\n\t0  0\t\t0 \n1 5 1 0\n  2\t3 \t1 0\n3 0 2 1 2   ");
    for byte in [0, 0x0b, 0x0c, 0x1f, 0x7f, 0x85, 0xa0, 0xff] {
        assert_refused([b"0\n0", &[byte][..], b"0 0\n1 0 0\n"].concat(), 13, 2);
        assert_refused([b"0\n0 0 0\n1 0 0\n", &[byte][..]].concat(), 13, 4);
        assert_refused([&[byte][..], b"0\n0 0 0\n1 0 0\n"].concat(), 13, 1);
    }
}

/// "Fields are decimal": digits alone.
#[test]
fn signs_and_other_marks() {
    for field in [
        "+1", "-1", "-0", "1.0", "0x1", "1e0", "1,0", "1_0", "x", "1x", "\u{661}", "1\0",
    ] {
        assert_refused(format!("1\n0 0 0\n1 {field} 0\n2 0 0\n"), 13, 3);
        assert_refused(format!("{field}\n0 0 0\n1 0 0\n2 0 0\n"), 13, 1);
    }
}

/// "one to five digits", so leading zeros are fine within five, in every field.
#[test]
fn leading_zeros() {
    assert_diamond("00002\n00 000 0000\n00001 005 01 00\n02 3 1 0\n003 00000 00002 1 02\n");
    assert_refused("000000\n0 0 0\n1 0 0\n", 13, 1);
    assert_refused("0\n0 000000 0\n1 0 0\n", 13, 2);
    assert_refused("0\n0 0 0\n000001 0 0\n", 13, 3);
    assert_refused("0\n0 0 0\n1 0 000000\n", 13, 3);
    assert_refused("0\n0 0 0\n1 0 1 000000\n", 13, 3);
}

/// "up to 65,535": in a time and in a predecessor, which the reader doesn't judge further.
#[test]
fn the_greatest_field() {
    assert_read(
        "1\n0 0 0\n1 65535 0\n2 0 1 65535\n",
        &[0, 65_535, 0],
        &[0, 0, 0, 1],
        &[65_535],
    );
    assert_refused("1\n0 0 0\n1 65536 0\n2 0 0\n", 13, 3);
    assert_refused("1\n0 0 0\n1 0 0\n2 0 1 65536\n", 13, 4);
    assert_refused("1\n0 0 0\n1 99999 0\n2 0 0\n", 13, 3);
    assert_refused("1\n0 0 0\n1 100000 0\n2 0 0\n", 13, 3);
    assert_refused("1\n0 0 0\n1 4294967296 0\n2 0 0\n", 13, 3);
    assert_refused("1\n0 0 0\n1 18446744073709551616 0\n2 0 0\n", 13, 3);
    assert_refused("0\n0 0 0\n1 0 65536\n", 13, 3);
}

/// "It doesn't judge predecessor numbers; begin does."
#[test]
fn predecessors_are_not_judged() {
    assert_read("0\n0 0 0\n1 0 4 1 1 2 999\n", &[0, 0], &[0, 0, 4], &[1, 1, 2, 999]);
}

/// "N = n+2", "N at most 1,024": 2 "when n is over 1,022"; above 65,535 it is no field.
#[test]
fn the_greatest_n() {
    assert_read(loose(1_022), &[0; 1_024], &[0; 1_025], &[]);
    assert_refused("1022\n", 13, 2);
    assert_refused(loose(1_023), 2, 0);
    assert_refused("1023", 2, 0);
    assert_refused("01023\n", 2, 0);
    assert_refused("65535\n0 0 0\n", 2, 0);
    assert_refused("65536\n0 0 0\n", 13, 1);
}

/// "line by line 13, or after it in that line 2"
#[test]
fn n_in_a_broken_line_and_before_one() {
    assert_refused("1023 0\n", 13, 1);
    assert_refused("1023 x\n", 13, 1);
    assert_refused("1023\r", 13, 1);
    assert_refused("1023\nx\n", 2, 0);
    assert_refused("x\n1023\n", 13, 1);
}

/// "E edges, at most 8,192"
#[test]
fn the_greatest_e() {
    let one = format!("0\n0 0 0\n{}", line(1, 8_192));
    assert_read(one, &[0, 0], &[0, 0, 8_192], &[7; 8_192]);
    let three = format!("2\n0 0 0\n{}{}{}", line(1, 8_190), line(2, 1), line(3, 1));
    assert_read(three, &[0; 4], &[0, 0, 8_190, 8_191, 8_192], &[7; 8_192]);
    assert_refused(format!("0\n0 0 0\n{}", line(1, 8_193)), 2, 0);
    assert_refused(
        format!("2\n0 0 0\n{}{}{}", line(1, 8_190), line(2, 1), line(3, 2)),
        2,
        0,
    );
}

/// "line by line 13, or after it in that line 2, when […] the edges pass 8,192."
#[test]
fn edges_in_a_broken_line_and_before_one() {
    let passing = format!("1\n0 0 0\n{}", line(1, 8_193));
    assert_refused(format!("{passing}x\n"), 2, 0);
    assert_refused(&passing, 2, 0);
    assert_refused(format!("{} x\n", passing.trim_end()), 13, 3);
    assert_refused(format!("{} 7\n", passing.trim_end()), 13, 3);
    assert_refused(passing.replace("\n1 0 ", "\n2 0 "), 13, 3);
    assert_refused(passing.replace("8193", "8194"), 13, 3);
    assert_refused(passing.replace("8193", "8192"), 13, 3);
    assert_refused(passing.replace("\n0 0 0", "\n0 0 x"), 13, 2);
    assert_refused(format!("0\n0 0 0\n{}", line(1, 8_193).replace("1 0", "1 9")), 13, 3);
    assert_refused(format!("1\n0 0 0\n{}2 0 x\n", line(1, 8_192)), 13, 4);
}

/// A great count before few fields is 13, not 2.
#[test]
fn a_great_count() {
    assert_refused("0\n0 0 0\n1 0 65535\n", 13, 3);
    assert_refused("0\n0 0 0\n1 0 8193 0\n", 13, 3);
}

/// "text over 65,536 bytes", before any line.
#[test]
fn the_longest_text() {
    let of_length = |length: usize| format!("0\n0 0 0\n1 0 0\n{}", "#".repeat(length - 14));
    assert_eq!(of_length(65_536).len(), 65_536);
    assert_least(of_length(65_536));
    assert_refused(of_length(65_537), 2, 0);
    assert_refused("x".repeat(65_536), 13, 1);
    assert_refused("x".repeat(65_537), 2, 0);
}

/// "The reader is lent 1,024, 1,025 and 8,192 words": 1 before the text's length and its lines.
#[test]
fn row_1_comes_first() {
    let wrong = [
        [1_023, 1_025, 8_192],
        [1_025, 1_025, 8_192],
        [1_024, 1_024, 8_192],
        [1_024, 1_026, 8_192],
        [1_024, 1_025, 8_191],
        [1_024, 1_025, 8_193],
        [4, 5, 4],
        [0, 0, 0],
    ];
    let long = "x".repeat(65_537);
    for lent in wrong {
        for text in [DIAMOND, "", "x", "1023", &long] {
            let (answer, lists) = outcome(text.as_bytes(), lent);
            assert_eq!(answer, refused(1, 0));
            assert_eq!(lists, lent.map(|length| vec![MARK; length]));
        }
    }
}

/// "number, time, count of predecessors, that many predecessors", and n alone in its line.
#[test]
fn too_few_and_too_many_fields() {
    assert_refused("0 0\n0 0 0\n1 0 0\n", 13, 1);
    assert_refused("0\n0\n1 0 0\n", 13, 2);
    assert_refused("0\n0 0\n1 0 0\n", 13, 2);
    assert_refused("0\n0 0 0 0\n1 0 0\n", 13, 2);
    assert_refused("0\n0 0 0\n1 0 1\n", 13, 3);
    assert_refused("0\n0 0 0\n1 0 1 0 0\n", 13, 3);
    assert_refused("0\n0 0 0 1 0 0\n", 13, 2);
}

/// "task numbers 0..n+1 rising"
#[test]
fn wrong_task_numbers() {
    assert_refused("0\n1 0 0\n1 0 0\n", 13, 2);
    assert_refused("0\n0 0 0\n0 0 0\n", 13, 3);
    assert_refused("1\n0 0 0\n2 0 0\n1 0 0\n", 13, 3);
    assert_refused("1\n0 0 0\n1 0 0\n3 0 0\n", 13, 4);
}

/// "Any other line after the last task breaks the layout"
#[test]
fn further_lines() {
    assert_refused(format!("{DIAMOND}4 0 0\n"), 13, 6);
    assert_refused(format!("{DIAMOND}0"), 13, 6);
    assert_refused(format!("{DIAMOND}\n#\n\nx"), 13, 9);
    assert_refused("1\n0 0 0\n1 5 1 0\n2 0 1 0\n3 0 2 1 2\n", 13, 5);
    // with n 1 task 2 is a dummy, and has a time
    assert_refused(DIAMOND.replacen('2', "1", 1), 13, 4);
    assert_refused(DIAMOND.replacen('2', "3", 1), 13, 6);
}

/// "Tasks 0 and n+1 are the dummies: time 0, and task 0 has no predecessors."
#[test]
fn dummies() {
    assert_least("0\n0 0 0\n1 0 0\n");
    assert_refused("0\n0 1 0\n1 0 0\n", 13, 2);
    assert_refused("0\n0 0 1 0\n1 0 0\n", 13, 2);
    assert_refused("0\n0 0 0\n1 1 0\n", 13, 3);
    assert_read("0\n0 0 0\n1 0 1 0\n", &[0, 0], &[0, 0, 1], &[0]);
    assert_read("1\n0 0 0\n1 9 1 0\n2 0 0\n", &[0, 9, 0], &[0, 0, 1, 1], &[0]);
    assert_refused("1\n0 0 0\n1 9 1 0\n2 9 0\n", 13, 4);
}

/// The first of two broken lines counts.
#[test]
fn two_broken_lines() {
    assert_refused("1\n0 1 0\n1 0 x\n2 0 0\n", 13, 2);
    assert_refused("1\n0 0 0\n1 0 x\n2 0\n", 13, 3);
}
