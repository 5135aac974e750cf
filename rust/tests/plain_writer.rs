//! The plain writer, behind the interface of the proved one's export, beside the model.

#[path = "common/saves.rs"]
mod saves;

use engine_model::exports::MAX_WRITTEN;
use engine_model::model::Refusal;
use engine_model::saves::{compare, drawn, Counts, Side, Write};
use engine_model::{plain, plain_export, writer};
use std::panic::catch_unwind;

const PLAIN: Side = Side {
    write: plain_export::write,
    read: plain::read,
};

#[test]
fn drawn_graphs() {
    saves::drawn_graphs(&PLAIN, 300_000, 1_600);
}

#[test]
fn every_mixture_of_defects() {
    saves::every_mixture_of_defects(&PLAIN);
}

#[test]
fn limits() {
    saves::limits(&PLAIN);
}

#[test]
fn the_examples() {
    saves::the_examples(&PLAIN);
}

#[test]
fn texts_that_are_read() {
    saves::texts_that_are_read(&PLAIN, 310, 1_000);
}

#[test]
fn the_measured_graphs() {
    saves::the_measured_graphs(&PLAIN);
}

/// What the model writes, with the text changed before it goes into the buffer.
fn changed(lists: [&[u32]; 3], buffer: &mut [u8], change: impl Fn(&str) -> String) -> Result<u32, Refusal> {
    let [weights, starts, preds] = lists;
    let mut text = vec![0; MAX_WRITTEN];
    let used = writer::write(weights, starts, preds, &mut text)? as usize;
    let text = change(std::str::from_utf8(&text[..used]).expect("a text"));
    let refused = Refusal { number: 1, detail: 0 };
    let place = buffer.get_mut(..text.len()).ok_or(refused)?;
    place.copy_from_slice(text.as_bytes());
    Ok(text.len() as u32)
}

/// Document 02's sentences, each broken in one place.
const WRONG: [(&str, Write); 7] = [
    ("predecessors are written rising", |weights, starts, preds, buffer| {
        let rising = |line: &str| {
            let mut fields: Vec<u32> = line.split(' ').map(|field| field.parse().expect("a field")).collect();
            let preds = fields.len().min(3);
            fields[preds..].sort_unstable();
            let fields: Vec<String> = fields.iter().map(u32::to_string).collect();
            fields.join(" ") + "\n"
        };
        let all = |text: &str| text.lines().map(rising).collect();
        changed([weights, starts, preds], buffer, all)
    }),
    ("the first line has N", |weights, starts, preds, buffer| {
        let first = |text: &str| {
            let (n, rest) = text.split_once('\n').expect("a first line");
            format!("{}\n{rest}", n.parse::<u32>().expect("n") + 2)
        };
        changed([weights, starts, preds], buffer, first)
    }),
    ("a space stands before LF", |weights, starts, preds, buffer| {
        let spaced = |text: &str| text.replace(" 0\n", " 0 \n");
        changed([weights, starts, preds], buffer, spaced)
    }),
    (
        "the text is cut at the buffer's end",
        |weights, starts, preds, buffer| {
            let mut text = vec![0; MAX_WRITTEN];
            let used = writer::write(weights, starts, preds, &mut text)? as usize;
            let cut = used.min(buffer.len());
            buffer[..cut].copy_from_slice(&text[..cut]);
            writer::write(weights, starts, preds, buffer)
        },
    ),
    (
        "the buffer is judged before 14",
        |weights, starts, preds, buffer| match writer::write(weights, starts, preds, buffer) {
            Err(Refusal { number: 14, .. }) if buffer.len() < 14 => Err(Refusal { number: 1, detail: 0 }),
            answer => answer,
        },
    ),
    ("the buffer's length is exact", |weights, starts, preds, buffer| {
        let mut text = buffer.to_vec();
        match writer::write(weights, starts, preds, &mut text) {
            Ok(used) if (used as usize) < text.len() => Err(Refusal { number: 1, detail: 0 }),
            _ => writer::write(weights, starts, preds, buffer),
        }
    }),
    ("bytes beyond are cleared", |weights, starts, preds, buffer| {
        let used = writer::write(weights, starts, preds, buffer)?;
        buffer[used as usize..].fill(0);
        Ok(used)
    }),
];

/// The comparison finds each of them, and nothing wrong with the plain one.
#[test]
fn wrong_writers_are_found() {
    let found = |write: Write| {
        let side = Side { write, ..PLAIN };
        let graphs = (1..200).map(drawn);
        catch_unwind(|| graphs.for_each(|graph| compare(&graph, &side, &mut Counts::new()))).is_err()
    };
    assert!(!found(PLAIN.write));
    for (wrong, write) in WRONG {
        assert!(found(write), "{wrong}");
    }
}
