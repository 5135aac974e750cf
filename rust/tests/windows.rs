//! Document 02's No. 4, load over the last tiles: its sentences and edges, each expected value reasoned from the papers' words;
//! and drawn records, whose windows add up.

use engine_model::draw::Draw;
use engine_model::engine::MODEL;
use engine_model::loads::{forged, Lent};
use engine_model::memory::{Memory, Step};
use engine_model::model::{Answer, Refusal};
use engine_model::runs::{next_case, Case};
use engine_model::windows::windows;

/// What the results hold before the call.
const MARK: u32 = 0xa5a5_a5a5;

/// The diamond's weights with document 01's record: `0 0`, `2 1`, `1 0`, `3 0`.
fn diamond() -> Lent {
    Lent {
        weights: vec![0, 5, 3, 0],
        executed: vec![0, 0, 2, 1, 1, 0, 3, 0],
        run: vec![4, 16],
        p: 2,
    }
}

fn with(change: impl Fn(&mut Lent)) -> Lent {
    let mut lent = diamond();
    change(&mut lent);
    lent
}

fn outcome(lent: &Lent, m: usize, length: usize) -> (Answer, Vec<u32>) {
    let mut results = vec![MARK; length];
    let answer = windows(&lent.weights, &lent.executed, &lent.run, &mut results, lent.p, m);
    (answer, results)
}

/// Accepted with exactly as many words, which become these; with more or fewer it is 1.
#[track_caller]
fn assert_windows(lent: &Lent, m: usize, words: &[u32]) {
    assert_eq!(outcome(lent, m, words.len()), (Ok(()), words.to_vec()));
    for length in [0, words.len() - 1, words.len() + 1, words.len() + lent.p + 1] {
        assert_refused_in(lent, m, length, 1);
    }
}

#[track_caller]
fn assert_refused_in(lent: &Lent, m: usize, length: usize, number: u32) {
    let refused = Err(Refusal { number, detail: 0 });
    assert_eq!(
        outcome(lent, m, length),
        (refused, vec![MARK; length]),
        "{length} words"
    );
}

/// Refused so whatever the results.
#[track_caller]
fn assert_refused(lent: &Lent, m: usize, number: u32) {
    for length in [0, 1, 3, 9, 10, 12, 17_408] {
        assert_refused_in(lent, m, length, number);
    }
}

/// "for every run of m neighbouring record entries, the weight each worker finished and the spread", "the spread last"
#[test]
fn the_diamond() {
    assert_windows(&diamond(), 2, &[0, 3, 3, 5, 3, 2, 5, 0, 5]);
    assert_windows(&diamond(), 1, &[0, 0, 0, 0, 3, 3, 5, 0, 5, 0, 0, 0]);
    assert_windows(&diamond(), 3, &[5, 3, 2, 5, 3, 2]);
    assert_windows(&diamond(), 4, &[5, 3, 2]);
}

/// "each worker": one without an entry has 0, and the spread is from there.
#[test]
fn more_workers_than_finished_anything() {
    assert_windows(&with(|lent| lent.p = 3), 4, &[5, 3, 0, 5]);
    assert_windows(&with(|lent| lent.p = 3), 3, &[5, 3, 0, 5, 5, 3, 0, 5]);
}

/// "15 for m zero or above the entries recorded", before the length of the result words
#[test]
fn row_15() {
    for m in [0, 5, 6, 1 << 32, usize::MAX] {
        assert_refused(&diamond(), m, 15);
    }
    let three = with(|lent| lent.run[0] = 3);
    assert_refused(&three, 4, 15);
    assert_windows(&three, 3, &[5, 3, 2]);
    // nothing recorded: every m; no tasks: the same
    let none = with(|lent| lent.run[0] = 0);
    let empty = Lent {
        weights: vec![],
        executed: vec![],
        ..none.clone()
    };
    for m in [0, 1, 2] {
        assert_refused(&none, m, 15);
        assert_refused(&empty, m, 15);
    }
}

/// "entries over N are 8 before 15", after the lengths
#[test]
fn entries_over_n() {
    for m in [0, 1, 4, 5, 6] {
        assert_refused(&with(|lent| lent.run[0] = 5), m, 8);
        assert_refused(&with(|lent| lent.run[0] = u32::MAX), m, 8);
    }
    let short = with(|lent| {
        lent.run[0] = 5;
        lent.executed.pop();
    });
    assert_refused(&short, 2, 1);
}

/// "last, a recorded task ≥ N, worker ≥ P or weight over 65,535 is 8": after the length of the result words
#[test]
fn damaged_entries() {
    let damages: [fn(&mut Lent); 6] = [
        |lent| lent.executed[0] = 4,
        |lent| lent.executed[6] = u32::MAX,
        |lent| lent.executed[3] = 2,
        |lent| lent.executed[7] = 65_535,
        |lent| lent.weights[2] = 65_536,
        |lent| lent.p = 1,
    ];
    for damage in damages {
        let lent = with(damage);
        // windows before and behind the damaged entry aren't written either
        for m in 1..=4 {
            let words = (5 - m) * (lent.p + 1);
            assert_refused_in(&lent, m, words, 8);
            assert_refused_in(&lent, m, words + 1, 1);
        }
        assert_refused(&lent, 5, 15);
    }
    let bad_task = with(|lent| lent.executed[2] = 4);
    assert_refused_in(&bad_task, 2, 10, 1);
    assert_refused_in(&bad_task, 2, 9, 8);
    assert_windows(&with(|lent| lent.weights[2] = 65_535), 4, &[5, 65_535, 65_530]);
}

/// Not read: entries behind the entries word, the weights of tasks that aren't recorded, the accepted word.
#[test]
fn behind_the_entries() {
    let three = [0, 3, 3, 5, 3, 2];
    let behind: [fn(&mut Lent); 5] = [
        |_| {},
        |lent| lent.executed[6] = u32::MAX,
        |lent| lent.executed[7] = 2,
        |lent| lent.weights[3] = 65_536,
        |lent| lent.run[1] = u32::MAX,
    ];
    for damage in behind {
        let mut lent = with(damage);
        lent.run[0] = 3;
        assert_windows(&lent, 2, &three);
    }
}

/// 2 first: "N at most 1,024", "P from 1 to 16"; then the lengths of record and run words.
#[test]
fn limits_and_lengths() {
    for p in [0, 17, usize::MAX] {
        assert_refused(&with(|lent| lent.p = p), 2, 2);
        assert_refused(&with(|lent| (lent.p, lent.run) = (p, vec![])), 0, 2);
    }
    let long = Lent {
        weights: vec![0; 1_025],
        executed: vec![0; 2_050],
        run: vec![1_025, 0],
        p: 16,
    };
    assert_refused(&long, 1, 2);
    for length in [0, 7, 9, 10] {
        assert_refused(&with(|lent| lent.executed.resize(length, 0)), 0, 1);
    }
    // three run words, as weak jobs have
    for length in [0, 1, 3] {
        assert_refused(&with(|lent| lent.run.resize(length, 0)), 0, 1);
    }
    let most = Lent {
        weights: vec![65_535; 1_024],
        executed: [0, 15].repeat(1_024),
        run: vec![1_024, 0],
        p: 16,
    };
    // a forged record names one task 1,024 times: the sum still fits a word
    let mut words = vec![0; 17];
    (words[15], words[16]) = (67_107_840, 67_107_840);
    assert_windows(&most, 1_024, &words);
    assert_eq!(outcome(&most, 1, 17_408).0, Ok(()));
}

/// A window's sums add up to its m weights; next to each other, windows differ by the entry that leaves and the one that enters.
#[test]
fn drawn_records_add_up() {
    let draw = &mut Draw::new(910);
    for _ in 0..300 {
        let lent = forged(draw, 40);
        let entries = lent.run[0] as usize;
        for m in 1..=entries {
            let (answer, words) = outcome(&lent, m, lent.words(m));
            assert_eq!(answer, Ok(()));
            for (first, window) in words.chunks(lent.p + 1).enumerate() {
                let tasks = lent.executed[2 * first..2 * (first + m)]
                    .chunks(2)
                    .map(|pair| pair[0] as usize);
                let weight: u32 = tasks.map(|task| lent.weights[task]).sum();
                let sums = &window[..lent.p];
                assert_eq!(sums.iter().sum::<u32>(), weight);
                let spread = sums
                    .iter()
                    .max()
                    .zip(sums.iter().min())
                    .map(|(largest, smallest)| largest - smallest);
                assert_eq!(spread, Some(window[lent.p]));
            }
        }
    }
}

/// A finished run's whole record is one window, whose sums add up to the total weight.
#[test]
fn finished_runs() {
    let mut finished = 0;
    for case in (0..800).map(next_case).filter(Case::is_honest) {
        let Case {
            mut memory,
            p,
            k,
            calls,
        } = case;
        if (MODEL.begin)(&mut memory, p, k).is_err() {
            continue;
        }
        calls.iter().for_each(|call| {
            call.make(&MODEL, &mut memory);
        });
        if memory.n() == 0 || memory.run[0] as usize != memory.n() {
            continue;
        }
        let (answer, words) = outcome(&Lent::of(&memory, p), memory.n(), p + 1);
        assert_eq!(answer, Ok(()));
        assert_eq!(words[..p].iter().sum::<u32>(), memory.weights.iter().sum::<u32>());
        finished += 1;
    }
    assert!(finished >= 100, "{finished}");
}

/// The diamond's record comes from its run: turns go round, each the first accepted of Release, Fetch, Start, Complete.
#[test]
fn the_diamond_s_run() {
    let mut memory = Memory::sized(vec![0, 5, 3, 0], vec![0, 0, 1, 2, 4], vec![0, 0, 1, 2], 2, 4, 7);
    assert_eq!((MODEL.begin)(&mut memory, 2, 4), Ok(()));
    assert_refused(&Lent::of(&memory, 2), 1, 15);
    for worker in [0, 1].into_iter().cycle() {
        if memory.run == [4, 16] {
            break;
        }
        let mut order = [Step::Release, Step::Fetch, Step::Start, Step::Complete].into_iter();
        order.find(|&step| (MODEL.step)(&mut memory, 2, 4, worker, step).is_ok());
    }
    assert_eq!(memory.executed, diamond().executed);
    assert_windows(&Lent::of(&memory, 2), 2, &[0, 3, 3, 5, 3, 2, 5, 0, 5]);
}
