//! Lists of calls that the engine and the preview make in any turn on the same lent lists: "Both call one core", so within the
//! preview's limits it makes no difference who made which call, and beyond them the preview's calls are refused with 2.

use crate::beside::{add_up, compare_by, Side};
use crate::demand3::{self, Finished};
use crate::draw::Draw;
use crate::engine::{Engine, Limits};
use crate::runs::{next_case, next_case_within, runs_of_one_graph_within, Call, Case};

/// Who makes a call.
#[derive(Clone, Copy, Debug, PartialEq, Eq)]
pub enum By {
    Engine,
    Preview,
}

/// Something of the engine, and the same of the preview.
#[derive(Clone, Copy)]
pub struct Both<T> {
    pub engine: T,
    pub preview: T,
}

impl<T> Both<T> {
    pub fn of(&self, by: By) -> &T {
        match by {
            By::Engine => &self.engine,
            By::Preview => &self.preview,
        }
    }
}

/// A case, and who makes each of its calls.
#[derive(Clone, Debug)]
pub struct Mixed {
    pub case: Case,
    pub turns: Vec<By>,
}

/// The list of this seed; every fourth is of a case that is drawn at the engine's limits.
pub fn drawn(seed: u64) -> Mixed {
    let case = match seed % 4 {
        3 => next_case(seed / 4),
        _ => next_case_within(Limits::PREVIEW, seed / 4 * 3 + seed % 4),
    };
    mixed(&mut Draw::new(seed), case)
}

/// Some honest runs of one graph within the preview's limits.
pub fn runs_of_one_graph(seed: u64, most: usize, count: usize) -> Vec<Mixed> {
    let draw = &mut Draw::new(seed);
    let cases = runs_of_one_graph_within(Limits::PREVIEW, seed, most, count);
    cases.into_iter().map(|case| mixed(draw, case)).collect()
}

fn mixed(draw: &mut Draw, case: Case) -> Mixed {
    let Case { memory, p, k, .. } = &case;
    if Limits::PREVIEW.hold(memory.n(), memory.e(), *p, *k) {
        in_any_turn(draw, case)
    } else {
        with_the_preview_between(draw, case)
    }
}

/// Begun by one and stepped by the other; by turns; each call by whoever is drawn; or some calls by one, then some by the other.
fn in_any_turn(draw: &mut Draw, case: Case) -> Mixed {
    let (one, other) = draw.pick(&[(By::Engine, By::Preview), (By::Preview, By::Engine)]);
    let manner = draw.below(4);
    let mut last = one;
    let mut by = |call: &Call| {
        let changes = match manner {
            0 => {
                let begins = matches!(call, Call::Begin { .. });
                return if begins { one } else { other };
            }
            1 => true,
            2 => draw.below(2) == 0,
            _ => draw.below(8) == 0,
        };
        if changes {
            last = if last == By::Engine { By::Preview } else { By::Engine };
        }
        last
    };
    let turns = case.calls.iter().map(&mut by).collect();
    Mixed { case, turns }
}

/// Beyond the preview's limits the engine makes the calls, and the preview tries some of them before.
fn with_the_preview_between(draw: &mut Draw, case: Case) -> Mixed {
    let one_in = draw.pick(&[1, 2, 8]);
    let mut calls = Vec::new();
    let mut turns = Vec::new();
    for &call in &case.calls {
        let is_made = matches!(call, Call::Begin { .. } | Call::Step { .. });
        if is_made && draw.below(one_in) == 0 {
            calls.push(call);
            turns.push(By::Preview);
        }
        calls.push(call);
        turns.push(By::Engine);
    }
    let case = Case { calls, ..case };
    Mixed { case, turns }
}

/// Compares the lists, each call with the model of whoever makes it.
///
/// # Panics
///
/// If a caller parts from its model, or if the lists meet one of these numbers, 0 for acceptance, less than `least` times.
pub fn compare_all(lists: impl Iterator<Item = (u64, Mixed)>, sides: &Both<Side>, numbers: &[usize], least: usize) {
    let compared = |(seed, Mixed { case, turns }): (u64, Mixed), guard| {
        let counts = compare_by(&case, |place| sides.of(turns[place]), guard);
        (seed, counts)
    };
    add_up(lists, compared, numbers, least);
}

/// Plays an honest list and checks all that demand 3 says of its runs.
///
/// # Errors
///
/// What is found wrong, as a sentence.
pub fn play(engines: &Both<Engine>, list: &Mixed) -> Result<Vec<Finished>, String> {
    demand3::play_by(|place| engines.of(list.turns[place]), &list.case)
}
