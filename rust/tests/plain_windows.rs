//! The plain load windows, behind the interface of the proved ones' export, beside the model.

#[path = "common/loads.rs"]
mod loads;

use engine_model::loads::{compare, drawn, Counts, Windows};
use engine_model::model::{Answer, Refusal};
use engine_model::{plain_export, windows};
use std::panic::catch_unwind;

#[test]
fn drawn_lists() {
    loads::drawn_lists(plain_export::windows, 300_000, 1_000);
}

#[test]
fn honest_runs() {
    loads::honest_runs(plain_export::windows, 0, 800);
}

#[test]
fn limits() {
    loads::limits(plain_export::windows);
}

#[test]
fn the_measured_record() {
    loads::the_measured_record(plain_export::windows);
}

/// The model's results, with each window changed before it is written.
fn changed(lists: [&[u32]; 3], results: &mut [u32], p: usize, m: usize, change: impl Fn(&mut [u32])) -> Answer {
    let [weights, executed, run] = lists;
    windows::windows(weights, executed, run, results, p, m)?;
    results.chunks_mut(p + 1).for_each(change);
    Ok(())
}

/// Document 02's sentences, each broken in one place.
const WRONG: [(&str, Windows); 6] = [
    ("the spread stands first", |weights, executed, run, results, p, m| {
        changed([weights, executed, run], results, p, m, |window| window.rotate_right(1))
    }),
    (
        "the spread is over workers that have finished something",
        |weights, executed, run, results, p, m| {
            changed([weights, executed, run], results, p, m, |window| {
                let (spread, sums) = window.split_last_mut().expect("P + 1 words");
                let least = sums.iter().copied().filter(|&sum| sum > 0).min().unwrap_or(0);
                *spread = sums.iter().copied().max().unwrap_or(0) - least;
            })
        },
    ),
    (
        "the entry that leaves is never dropped",
        |weights, executed, run, results, p, m| {
            windows::windows(weights, executed, run, results, p, m)?;
            for (last, window) in (m..).zip(results.chunks_mut(p + 1)) {
                let mut all = vec![0; p];
                for pair in executed[..2 * last].chunks(2) {
                    all[pair[1] as usize] += weights[pair[0] as usize];
                }
                window[..p].copy_from_slice(&all);
            }
            Ok(())
        },
    ),
    (
        "windows are written up to the damaged entry",
        |weights, executed, run, results, p, m| {
            let answer = windows::windows(weights, executed, run, results, p, m);
            if answer == Err(Refusal { number: 8, detail: 0 }) && !results.is_empty() {
                results[0] = 0;
            }
            answer
        },
    ),
    (
        "results are judged before 15",
        |weights, executed, run, results, p, m| match windows::windows(weights, executed, run, results, p, m) {
            Err(Refusal { number: 15, .. }) if results.is_empty() => Err(Refusal { number: 1, detail: 0 }),
            answer => answer,
        },
    ),
    (
        "15 comes before entries over N",
        |weights, executed, run, results, p, m| match windows::windows(weights, executed, run, results, p, m) {
            Err(Refusal { number: 8, .. }) if m == 0 => Err(Refusal { number: 15, detail: 0 }),
            answer => answer,
        },
    ),
];

/// The comparison finds each of them, and nothing wrong with the plain ones.
#[test]
fn wrong_windows_are_found() {
    let found = |side: Windows| {
        let all = (1..200).map(drawn);
        catch_unwind(|| all.for_each(|lent| compare(side, &lent, &mut Counts::new()))).is_err()
    };
    assert!(!found(plain_export::windows));
    for (wrong, side) in WRONG {
        assert!(found(side), "{wrong}");
    }
}
