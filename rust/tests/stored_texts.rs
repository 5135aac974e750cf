//! The stored files of the program `text_trials` are what the generator and the model write, and they try what they should.

mod common;

use common::{assert_stored, stored};
use engine_model::frames::{answers, cases, texts, Frame, TextTrial, LENT};
use engine_model::model::Refusal;
use engine_model::{plain, reader, texts as generator};

/// What the program has room for: the bytes of the input, a lent list.
const INPUT: usize = 700_000;
const LONGEST: usize = 8_200;

#[test]
fn the_cases_are_the_generated_ones() {
    assert_stored("text_trials", "stdin", &cases(&generator::all()));
}

#[test]
fn the_answers_are_the_model_s() {
    let stored = String::from_utf8(stored("text_trials", "stdout")).expect("words");
    let frames = generator::all();
    assert_eq!(stored.lines().count(), frames.len());
    for (line, frame) in stored.split_inclusive('\n').zip(&frames) {
        let case = frame.case();
        assert_eq!(line, frame.answer(), "{}", case[..case.len().min(200)].escape_ascii());
    }
}

/// The frames are read back from the stored bytes by their headers alone.
#[test]
fn the_framing_holds() {
    let stored = stored("text_trials", "stdin");
    let mut rest = stored.as_slice();
    let mut read = 0;
    while !rest.is_empty() {
        let end = rest.iter().position(|&byte| byte == b'\n').expect("a header ends");
        let header = std::str::from_utf8(&rest[..end]).expect("a header is words");
        rest = &rest[end + 1..];
        if let Some(numbers) = header.strip_prefix("t ") {
            let numbers: Vec<usize> = numbers
                .split(' ')
                .map(|number| number.parse().expect("a number"))
                .collect();
            assert_eq!(numbers.len(), 4);
            assert_eq!(rest[numbers[0]], b'\n');
            rest = &rest[numbers[0] + 1..];
        } else {
            assert!(header.starts_with("# "));
        }
        read += 1;
    }
    assert_eq!(read, generator::all().len());
}

#[test]
fn the_program_has_room_for_every_case() {
    let frames = generator::all();
    assert!(cases(&frames).len() < INPUT);
    assert!(texts(&frames).all(|trial| trial.lent.iter().all(|&length| length <= LONGEST)));
    assert!(texts(&frames).filter(|trial| trial.text.len() > 60_000).count() <= 4);
    // a note is one line, and no text's header
    assert!(frames.iter().all(|frame| match frame {
        Frame::Note(words) => !words.contains('\n'),
        Frame::Text(_) => true,
    }));
}

/// Every answer that the reader can give is there often.
#[test]
fn every_number_is_tried() {
    let answers = answers(&generator::all());
    let count = |words: &str| answers.lines().filter(|line| line.starts_with(words)).count();
    for (words, least) in [
        ("read 0 0 ", 800),
        ("read 0 0 2 0 : ", 300),
        ("read 0 0 4 8192 : ", 2),
        ("read 0 0 1024 8192 : ", 1),
        ("read 0 0 1024 0 : ", 1),
        ("read 1 0 0 0 : ", 40),
        ("read 2 0 0 0 : ", 15),
        ("read 13 ", 1_500),
        ("read 13 65537 ", 1),
        ("read 13 1025 ", 1),
        ("read 13 1026 ", 1),
    ] {
        assert!(count(words) >= least, "{words}: {}", count(words));
    }
    for line in 1..=6 {
        let words = format!("read 13 {line} 0 0 : kept | kept | kept");
        assert!(count(&words) >= 50, "{words}: {}", count(&words));
    }
    for number in [2, 13] {
        let refused = answers
            .lines()
            .filter(|line| line.starts_with(&format!("read {number} ")));
        assert!(refused.clone().all(|line| line.ends_with(" 0 0 : kept | kept | kept")));
    }
}

type Answer = Result<(u32, u32), Refusal>;
type Read = fn(&[u8], &mut [u32], &mut [u32], &mut [u32]) -> Answer;

/// A reader's answer to a trial, and what the lent lists hold then.
fn outcome(read: Read, trial: &TextTrial) -> (Answer, [Vec<u32>; 3]) {
    let [mut weights, mut starts, mut preds] = trial.lent.map(|length| vec![70_000; length]);
    let answer = read(&trial.text, &mut weights, &mut starts, &mut preds);
    (answer, [weights, starts, preds])
}

/// Whether the text has a part like this.
fn has(text: &[u8], part: &[u8]) -> bool {
    text.windows(part.len()).any(|some| some == part)
}

/// An LF without a CR before it.
fn has_bare_lf(text: &[u8]) -> bool {
    text.first() == Some(&b'\n') || text.windows(2).any(|two| two[0] != b'\r' && two[1] == b'\n')
}

/// A CR without an LF after it.
fn has_bare_cr(text: &[u8]) -> bool {
    text.last() == Some(&b'\r') || text.windows(2).any(|two| two[0] == b'\r' && two[1] != b'\n')
}

/// A field with leading zeros.
fn has_zeros(text: &[u8]) -> bool {
    [&b"\n00"[..], b" 00", b"\t00", b" 01", b"\t01"]
        .iter()
        .any(|part| has(text, part))
}

/// What kinds of texts are there, accepted and refused.
#[test]
fn every_kind_is_tried() {
    let frames = generator::all();
    let judge = |trial| (trial, outcome(reader::read, trial).0.is_ok());
    let judged: Vec<(&TextTrial, bool)> = texts(&frames).map(judge).collect();
    let assert_kind = |kind: &str, accepted: usize, refused: usize, is: &dyn Fn(&[u8]) -> bool| {
        let of_kind = judged.iter().filter(|(trial, _)| trial.lent == LENT && is(&trial.text));
        let answers: Vec<bool> = of_kind.map(|&(_, accepted)| accepted).collect();
        let good = answers.iter().filter(|&&accepted| accepted).count();
        let bad = answers.len() - good;
        assert!(good >= accepted && bad >= refused, "{kind}: {good} {bad}");
    };
    assert_kind("CR LF alone", 50, 100, &|text| has(text, b"\r\n") && !has_bare_lf(text));
    assert_kind("mixed ends", 50, 100, &|text| has(text, b"\r\n") && has_bare_lf(text));
    assert_kind("no last LF", 300, 500, &|text| {
        text.last().is_some_and(|&byte| byte != b'\n')
    });
    assert_kind("a comment first", 100, 50, &|text| text.starts_with(b"#"));
    assert_kind("a comment last", 10, 10, &|text| {
        text.split(|&byte| byte == b'\n')
            .next_back()
            .is_some_and(|line| line.starts_with(b"#"))
    });
    assert_kind("an empty line", 50, 80, &|text| has(text, b"\n\n"));
    assert_kind("a tab", 100, 300, &|text| text.contains(&b'\t'));
    assert_kind("leading zeros", 100, 200, &|text| has_zeros(text));
    assert_kind("NUL", 10, 10, &|text| text.contains(&0));
    assert_kind("high bytes", 100, 300, &|text| !text.is_ascii());
    assert_kind("CR before no LF", 10, 100, &|text| has_bare_cr(text));
    assert_kind("form feed", 1, 3, &|text| text.contains(&0x0c));
    assert_kind("vertical tab", 1, 3, &|text| text.contains(&0x0b));
    for field in ["+1", "-1", "1.0", "0x1", "65536", "000001"] {
        assert_kind(field, 0, 12, &|text| has(text, field.as_bytes()));
    }
    assert_kind("65535", 4, 20, &|text| has(text, b"65535"));
    assert_kind("columns", 1, 0, &|text| has(text, b"\n         10          "));
    assert_kind("65,536 bytes", 1, 1, &|text| text.len() == 65_536);
    assert_kind("65,537 bytes", 0, 1, &|text| text.len() == 65_537);
}

/// The plain reader, whose cost is compared, keeps to the model: the answer and every word of the lent lists.
fn compare_plain(trial: &TextTrial) {
    let (model, plain) = (outcome(reader::read, trial), outcome(plain::read, trial));
    let shown = trial.text[..trial.text.len().min(300)].escape_ascii();
    assert_eq!(model.0, plain.0, "{shown}");
    assert!(model.1 == plain.1, "the lent lists differ: {shown}");
}

#[test]
fn the_plain_reader_on_the_stored_texts() {
    texts(&generator::all()).for_each(compare_plain);
}

#[test]
fn the_plain_reader_on_further_texts() {
    generator::further(200, 20_000).iter().for_each(compare_plain);
}

/// The texts that the readers are measured on are as they are described.
#[test]
fn the_measured_texts() {
    for (text, edges) in [
        (generator::bench::single(), 7_840),
        (generator::bench::columns(), 2_780),
    ] {
        let trial = TextTrial::of(text);
        compare_plain(&trial);
        assert_eq!(trial.text.len(), 65_536);
        let answer = Frame::Text(trial.clone()).answer();
        assert!(answer.starts_with(&format!("read 0 0 1024 {edges} : ")), "{answer}");
        let comment = trial
            .text
            .iter()
            .position(|&byte| byte == b'#')
            .expect("a comment at the end");
        assert!(65_536 - comment < 300, "{comment}");
    }
}
