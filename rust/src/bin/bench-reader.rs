//! Reads one text with the proved reader and with the plain one, for the script `bench`: `bench-reader TEXT READS`, where
//! the text is `single` or `columns`. It prints nothing, and fails unless both readers give the same.

use engine_model::frames::LENT;
use engine_model::model::Refusal;
use engine_model::texts::bench;
use engine_model::{plain, proved};
use std::env;
use std::hint::black_box;

type Answer = Result<(u32, u32), Refusal>;
type Lists = [Vec<u32>; 3];

#[inline(never)]
fn proved_reader(text: &[u8], weights: &mut [u32], starts: &mut [u32], preds: &mut [u32]) -> Answer {
    proved::read(text, weights, starts, preds)
}

#[inline(never)]
fn plain_reader(text: &[u8], weights: &mut [u32], starts: &mut [u32], preds: &mut [u32]) -> Answer {
    plain::read(text, weights, starts, preds)
}

fn main() {
    let mut words = env::args().skip(1);
    let text = match words.next().as_deref() {
        Some("single") => bench::single(),
        Some("columns") => bench::columns(),
        _ => panic!("the text is single or columns"),
    };
    let reads: u32 = words
        .next()
        .and_then(|word| word.parse().ok())
        .expect("a number of reads");

    for _ in 0..reads {
        let mut lists: [Lists; 2] = [(); 2].map(|()| LENT.map(|length| vec![0; length]));
        let [[weights, starts, preds], [plain_weights, plain_starts, plain_preds]] = &mut lists;
        let proved = proved_reader(black_box(&text), weights, starts, preds);
        let plain = plain_reader(black_box(&text), plain_weights, plain_starts, plain_preds);
        assert!(proved.is_ok_and(|(tasks, _)| tasks == 1_024));
        assert_eq!(proved, plain);
        assert_eq!(lists[0], lists[1]);
    }
}
