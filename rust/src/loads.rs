//! Lent lists of load windows, drawn from a seed: records of honest runs, forged ones, damaged words, wrong lengths, numbers at
//! and beyond their limits; and load windows beside the model, every lent word compared, with guards around them.

use crate::draw::Draw;
use crate::engine::MODEL;
use crate::memory::{Memory, ENTRIES};
use crate::model::{word, Answer, MAX_TASKS};
use crate::runs::{next_case, Case};
use crate::windows;
use std::collections::BTreeMap;

pub type Windows = fn(&[u32], &[u32], &[u32], &mut [u32], usize, usize) -> Answer;

/// All that load windows may answer, 0 being acceptance.
pub const ANSWERS: [u32; 5] = [0, 1, 2, 8, 15];

/// What is lent but the results, and P.
#[derive(Clone, Debug)]
pub struct Lent {
    pub weights: Vec<u32>,
    pub executed: Vec<u32>,
    pub run: Vec<u32>,
    pub p: usize,
}

impl Lent {
    /// Of a run's memory.
    pub fn of(memory: &Memory, p: usize) -> Lent {
        Lent {
            weights: memory.weights.clone(),
            executed: memory.executed.clone(),
            run: memory.run.clone(),
            p,
        }
    }

    /// The words of these lists' results for windows of m entries, as far as the lists have them.
    pub fn words(&self, m: usize) -> usize {
        let entries = self.run.first().map_or(0, |&entries| entries as usize).min(MAX_TASKS);
        (entries + 1).saturating_sub(m) * (self.p.min(16) + 1)
    }
}

/// What this case's memory is like after some of its calls, in a run the engine's alone.
fn honest(draw: &mut Draw, case: Case) -> Lent {
    let Case {
        mut memory, p, calls, ..
    } = case;
    let some = draw.below(calls.len() + 1);
    let made = draw.pick(&[calls.len(), some]);
    for call in &calls[..made] {
        call.make(&MODEL, &mut memory);
    }
    Lent::of(&memory, p)
}

/// A record that no run has: tasks twice, any worker below P, up to `most` entries.
pub fn forged(draw: &mut Draw, most: usize) -> Lent {
    let n = draw.between(1, most);
    let any = draw.between(1, 16);
    let p = draw.pick(&[1, 2, 3, 4, 16, any]);
    let heavy = draw.below(4) == 0;
    let weight = |draw: &mut Draw| match heavy {
        true => 65_535,
        false => word(draw.below(65_536)),
    };
    let weights = (0..n).map(|_| weight(draw)).collect();
    let executed = (0..n)
        .flat_map(|_| [word(draw.below(n)), word(draw.below(p))])
        .collect();
    let some = draw.below(n + 1);
    let entries = draw.pick(&[n, n, some]);
    let accepted = draw.pick(&[0, 1, u32::MAX]);
    Lent {
        weights,
        executed,
        run: vec![word(entries), accepted],
        p,
    }
}

/// A word of one of the lists becomes another, mostly a damaged one; of the record also behind the entries.
fn damage(draw: &mut Draw, lent: &mut Lent) {
    let (n, p) = (word(lent.weights.len()), word(lent.p.min(17)));
    let put = |draw: &mut Draw, list: &mut [u32], words: &[u32]| {
        if !list.is_empty() {
            list[draw.below(list.len())] = draw.pick(words);
        }
    };
    match draw.below(4) {
        0 => put(draw, &mut lent.weights, &[65_535, 65_536, 1 << 31, u32::MAX]),
        1 => put(draw, &mut lent.executed, &[0, p, n, p + 1, n + 1, 65_535, u32::MAX]),
        2 => put(draw, &mut lent.run, &[0, 1, n, n + 1, 65_535, u32::MAX]),
        _ => lent.p = draw.pick(&[1, 2, lent.p.saturating_sub(1), lent.p.saturating_add(1), 16, 17]),
    }
}

/// A list gets another length, or P is beyond its limits.
fn mislead(draw: &mut Draw, lent: &mut Lent) {
    let other = |draw: &mut Draw, length: usize| draw.pick(&[0, 1, length.saturating_sub(1), length + 1, length + 2]);
    match draw.below(4) {
        0 => lent.weights.resize(other(draw, lent.weights.len()), 1),
        1 => lent.executed.resize(other(draw, lent.executed.len()), 0),
        2 => lent.run.resize(draw.pick(&[0, 1, 3]), 0),
        _ => lent.p = draw.pick(&[0, 17, 18, usize::MAX, 1 << 32]),
    }
}

/// Honest records, forged ones, and both with something wrong, in turn.
pub fn drawn(seed: u64) -> Lent {
    let draw = &mut Draw::new(seed);
    let mut lent = match seed % 8 {
        0..=3 => {
            let honest_cases = (2 * seed..).map(next_case).filter(Case::is_honest);
            let mut small = honest_cases.filter(|case| case.memory.n() <= 40);
            let case = small.next().expect("every sixteen seeds hold each kind");
            honest(draw, case)
        }
        _ => forged(draw, 24),
    };
    let wrong = match seed % 8 {
        0 | 1 | 4 => 0,
        _ => draw.pick(&[0, 1, 1, 2, 3]),
    };
    for _ in 0..wrong {
        match draw.below(3) {
            0 => mislead(draw, &mut lent),
            _ => damage(draw, &mut lent),
        }
    }
    lent
}

/// N and P at their limits and beyond.
pub fn limits() -> Vec<Lent> {
    let full = |n: usize, p: usize| Lent {
        weights: vec![65_535; n],
        executed: (0..word(n)).flat_map(|task| [task, task % word(p)]).collect(),
        run: vec![word(n), 0],
        p,
    };
    let none = Lent {
        weights: vec![],
        executed: vec![],
        run: vec![0, 0],
        p: 1,
    };
    let mut one_more = none.clone();
    one_more.run[ENTRIES] = 1;
    vec![
        full(MAX_TASKS, 1),
        full(MAX_TASKS, 16),
        full(MAX_TASKS, 17),
        full(MAX_TASKS + 1, 16),
        none,
        one_more,
    ]
}

/// Words before and after each lent list, which no call may touch.
const GUARDS: usize = 61;

/// A lent list between guards.
#[derive(Clone, Debug, PartialEq, Eq)]
struct Between(Vec<u32>);

impl Between {
    fn of(list: &[u32], guard: u32) -> Between {
        let guards = [guard; GUARDS];
        Between([&guards, list, &guards].concat())
    }

    fn list(&self) -> &[u32] {
        &self.0[GUARDS..self.0.len() - GUARDS]
    }

    fn list_mut(&mut self) -> &mut [u32] {
        let end = self.0.len() - GUARDS;
        &mut self.0[GUARDS..end]
    }
}

/// How often each number was answered.
pub type Counts = BTreeMap<u32, usize>;

/// One call beside the model's, with results of so many words, between guards of two kinds; the answer is counted.
pub fn compare_call(side: Windows, lent: &Lent, m: usize, length: usize, counts: &mut Counts) {
    let pattern: Vec<u32> = (0..word(length)).map(|place| 0xa5a5_0000 ^ place).collect();
    let mut results = pattern.clone();
    let Lent {
        weights,
        executed,
        run,
        p,
    } = lent;
    let expected = windows::windows(weights, executed, run, &mut results, *p, m);
    if expected.is_err() {
        assert_eq!(results, pattern);
    }
    for guard in [0, 0xfeed_be39] {
        let lists = [weights, executed, run].map(|list| Between::of(list, guard));
        let mut found = Between::of(&pattern, guard);
        let (before, [weights, executed, run]) = (lists.clone(), &lists);
        let answer = side(weights.list(), executed.list(), run.list(), found.list_mut(), *p, m);
        assert_eq!(answer, expected, "m {m}, {length} words: {lent:?}");
        assert!(
            lists == before,
            "a list that is read differs, m {m}, {length} words: {lent:?}"
        );
        assert!(
            found == Between::of(&results, guard),
            "the results differ, m {m}, {length} words: {lent:?}"
        );
    }
    let number = expected.err().map_or(0, |refusal| refusal.number);
    *counts.entry(number).or_default() += 1;
}

/// Calls beside the model's with these m, each with results of the right length and of others.
pub fn compare_with(side: Windows, lent: &Lent, all: impl IntoIterator<Item = usize>, counts: &mut Counts) {
    for m in all {
        let words = lent.words(m);
        for length in [words, words + 1, words.saturating_sub(1), 0, words + lent.p.min(16) + 1] {
            compare_call(side, lent, m, length, counts);
        }
    }
}

/// The same with every m up to beyond the record, and with large ones.
pub fn compare(side: Windows, lent: &Lent, counts: &mut Counts) {
    let large = [1 << 31, 1 << 32, (1 << 32) + 1, 1 << 63, usize::MAX];
    compare_with(side, lent, (0..lent.weights.len() + 3).chain(large), counts);
}
