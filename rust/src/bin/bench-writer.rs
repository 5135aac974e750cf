//! Saves one graph with the proved writer and with the plain one behind the same interface, for the script `bench`:
//! `bench-writer GRAPH SAVES`, where the graph is that of the text `single` or `columns`, or has that many tasks. It prints
//! nothing, and fails unless both writers give the same.

use engine_model::exports::MAX_WRITTEN;
use engine_model::measured::{saved, saved_from};
use engine_model::model::Graph;
use engine_model::texts::bench;
use engine_model::{plain_export, proved};
use std::env;
use std::hint::black_box;

fn main() {
    let mut words = env::args().skip(1);
    let graph = match words.next().as_deref() {
        Some("single") => saved_from(&bench::single()),
        Some("columns") => saved_from(&bench::columns()),
        word => saved(
            word.and_then(|word| word.parse().ok())
                .expect("single, columns or a number of tasks"),
        ),
    };
    let saves: u32 = words
        .next()
        .and_then(|word| word.parse().ok())
        .expect("a number of saves");

    let Graph { weights, preds } = &graph;
    for _ in 0..saves {
        let mut texts = [(); 2].map(|()| vec![0; MAX_WRITTEN]);
        let [text, plain_text] = &mut texts;
        let proved = proved::write(black_box(weights), &preds.starts, &preds.words, text);
        let plain = plain_export::write(black_box(weights), &preds.starts, &preds.words, plain_text);
        assert!(proved.is_ok());
        assert_eq!(proved, plain);
        assert_eq!(texts[0], texts[1]);
    }
}
