//! The proved reader, called through its export, against the model, on the stored texts and on further ones.

use engine_model::frames::{texts, TextTrial, LENT};
use engine_model::model::Refusal;
use engine_model::{proved, reader, texts as generator};

/// Words before and after each lent list, which no call may touch.
const GUARDS: usize = 64;
const GUARD: u32 = 0xfeed_beef;
/// What a lent list holds before the call, plus its place.
const PATTERN: u32 = 70_000;

/// A lent list between guard words.
#[derive(Clone, PartialEq, Eq)]
struct Guarded(Vec<u32>);

impl Guarded {
    fn of(length: usize) -> Guarded {
        let guards = [GUARD; GUARDS];
        let list: Vec<u32> = (0..length as u32).map(|i| PATTERN + i).collect();
        Guarded([&guards, list.as_slice(), &guards].concat())
    }

    fn list(&mut self) -> &mut [u32] {
        let end = self.0.len() - GUARDS;
        &mut self.0[GUARDS..end]
    }
}

type Read = fn(&[u8], &mut [u32], &mut [u32], &mut [u32]) -> Result<(u32, u32), Refusal>;

/// The answer, and all three lists with their guards.
fn outcome(read: Read, text: &[u8], lent: [usize; 3]) -> (Result<(u32, u32), Refusal>, [Guarded; 3]) {
    let mut lists = lent.map(Guarded::of);
    let [weights, starts, preds] = &mut lists;
    let answer = read(text, weights.list(), starts.list(), preds.list());
    (answer, lists)
}

/// The text lies between bytes that would change its meaning: more digits, a further line, its missing end.
fn compare(trial: &TextTrial) {
    let TextTrial { text, lent } = trial;
    let shown = || text[..text.len().min(300)].escape_ascii();
    let expected = outcome(reader::read, text, *lent);
    for around in [&b"7"[..], b"\n7\n", b"\r\n", b"#"] {
        let laid = [around, text, around].concat();
        let middle = &laid[around.len()..around.len() + text.len()];
        let found = outcome(proved::read, middle, *lent);
        assert_eq!(found.0, expected.0, "{}", shown());
        assert!(found.1 == expected.1, "the lent lists differ: {}", shown());
    }
}

#[test]
fn the_stored_texts() {
    texts(&generator::all()).for_each(compare);
}

#[test]
fn further_texts() {
    generator::further(300, 20_000).iter().for_each(compare);
}

/// The same lists lent again, with the words of another text in them.
#[test]
fn one_text_after_another() {
    let mut lists = LENT.map(Guarded::of);
    let mut model = lists.clone();
    for TextTrial { text, .. } in generator::further(301, 2_000) {
        let [weights, starts, preds] = &mut lists;
        let found = proved::read(&text, weights.list(), starts.list(), preds.list());
        let [weights, starts, preds] = &mut model;
        let expected = reader::read(&text, weights.list(), starts.list(), preds.list());
        assert_eq!(found, expected, "{}", text.escape_ascii());
        assert!(lists == model, "the lent lists differ: {}", text.escape_ascii());
    }
}

/// The texts that the readers are measured on.
#[test]
fn the_measured_texts() {
    for text in [generator::bench::single(), generator::bench::columns()] {
        compare(&TextTrial::of(text));
    }
}
