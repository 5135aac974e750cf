//! Drawn jobs beside the model: what plain and weak ones share.

use engine_model::draw::Draw;
use engine_model::memory::Step;
use engine_model::model::{self, Graph};
use yolluvek::{Refusal, Tables, TaskId};

pub fn pair(refusal: Refusal) -> (u32, u32) {
    (refusal.number(), refusal.detail())
}

pub fn model_pair(refusal: model::Refusal) -> (u32, u32) {
    (refusal.number, refusal.detail)
}

pub fn tables_of(graph: &Graph) -> Tables {
    Tables {
        weights: graph.weights.clone(),
        pred_starts: graph.preds.starts.clone(),
        preds: graph.preds.words.iter().copied().map(TaskId::new).collect(),
    }
}

pub fn binding_step(step: Step) -> yolluvek::Step {
    match step {
        Step::Fetch => yolluvek::Step::Fetch,
        Step::Start => yolluvek::Step::Start,
        Step::Complete => yolluvek::Step::Complete,
        Step::Release => yolluvek::Step::Release,
    }
}

/// Damages tables in one place: a word, or the length of a list.
pub fn damage(draw: &mut Draw, graph: &mut Graph) {
    let n = graph.weights.len() as u32;
    let word = draw.pick(&[0, 1, n.saturating_sub(1), n, n + 1, 65_535, 65_536, u32::MAX]);
    let list = match draw.below(3) {
        0 => &mut graph.weights,
        1 => &mut graph.preds.starts,
        _ => &mut graph.preds.words,
    };
    match draw.below(4) {
        0 => list.push(word),
        1 => drop(list.pop()),
        _ if list.is_empty() => {}
        _ => {
            let place = draw.below(list.len());
            list[place] = word;
        }
    }
}
