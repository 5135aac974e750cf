//! A writer beside the model, whatever writer it is.

use engine_model::frames::{texts, TextTrial};
use engine_model::measured::{saved, saved_from};
use engine_model::model::Graph;
use engine_model::saves::{self, compare, compare_all, read_and_save, Counts, Side};
use engine_model::texts as generator;
use engine_model::texts::bench;
use std::fs;
use std::path::Path;

/// Graphs of so many seeds, sound and damaged; each answer comes often.
pub fn drawn_graphs(side: &Side, first: u64, count: u64) {
    compare_all((first..first + count).map(saves::drawn), side, count as usize / 40);
}

/// The order of the numbers.
pub fn every_mixture_of_defects(side: &Side) {
    compare_all((0..512).map(saves::mixture), side, 2);
}

/// The longest text of 53,978 bytes among them.
pub fn limits(side: &Side) {
    let mut counts = Counts::new();
    for graph in saves::limits() {
        compare(&graph, side, &mut counts);
    }
    let mut text = vec![0; 53_978];
    let Graph { weights, preds } = saves::longest();
    assert_eq!(
        (side.write)(&weights, &preds.starts, &preds.words, &mut text),
        Ok(53_978)
    );
    assert!(counts[&0] > 0 && counts[&2] > 0, "{counts:?}");
}

/// Read, saved and read again, each of the repository's texts has the same tables; saved again, it has the same bytes.
pub fn the_examples(side: &Side) {
    let folder = Path::new(env!("CARGO_MANIFEST_DIR")).join("../examples");
    let files = fs::read_dir(folder)
        .expect("the examples")
        .map(|entry| entry.expect("an entry").path());
    let stored: Vec<_> = files
        .filter(|path| path.extension().is_some_and(|ending| ending == "stg"))
        .collect();
    assert!(stored.len() >= 5);
    for path in stored {
        let text = fs::read(&path).expect("a text");
        assert_eq!(read_and_save(&text, side), Some(0), "{}", path.display());
    }
}

/// "It doesn't judge predecessor numbers": what is read is saved or refused with 3, 4 or 5, and never with 14.
pub fn texts_that_are_read(side: &Side, seed: u64, count: usize) {
    let frames = generator::all();
    let stored = texts(&frames).map(|trial| trial.text.clone());
    let further = generator::further(seed, count)
        .into_iter()
        .map(|TextTrial { text, .. }| text);
    let mut counts = Counts::new();
    for text in stored.chain(further) {
        if let Some(number) = read_and_save(&text, side) {
            *counts.entry(number).or_default() += 1;
        }
    }
    let answers: Vec<u32> = counts.keys().copied().collect();
    assert_eq!(answers, [0, 3, 4, 5], "{counts:?}");
    assert!(counts.values().all(|&count| count >= 20), "{counts:?}");
}

/// The graphs that the writers are measured on: edges and bytes, as the script `bench` prints them.
pub fn the_measured_graphs(side: &Side) {
    for (graph, tasks, edges, bytes) in [
        (saved_from(&bench::single()), 1_024, 7_663, 40_107),
        (saved_from(&bench::columns()), 1_024, 2_758, 22_083),
        (saved(64), 64, 512, 2_074),
        (saved(256), 256, 2_048, 9_456),
        (saved(1_024), 1_024, 8_192, 42_320),
    ] {
        compare(&graph, side, &mut Counts::new());
        let Graph { weights, preds } = &graph;
        assert_eq!((weights.len(), preds.words.len()), (tasks, edges));
        let answer = (side.write)(weights, &preds.starts, &preds.words, &mut vec![0; bytes]);
        assert_eq!(answer, Ok(bytes as u32));
    }
}
