//! The writer of task texts in the words of document 02, No. 1, and of document 01's "Task text": the graph is checked, its
//! dummies are judged, and its lines are spelled.

use crate::model::{check, refused, word, Answer, Graph, Limits, Refusal, Table};

/// "Tasks 0 and n+1 are the dummies": "N = n+2".
const DUMMIES: usize = 2;

/// 14: "when N is under 2, task 0 has weight or predecessors, or the last task has weight", detail 0: "A later refusal
/// without a stated detail has detail 0."
fn judge_dummies(graph: &Graph) -> Answer {
    let (Some(first), Some(last)) = (graph.weights.first(), graph.weights.last()) else {
        return refused(14, 0);
    };
    let too_few = graph.weights.len() < DUMMIES;
    if too_few || *first != 0 || !graph.predecessors(0).is_empty() || *last != 0 {
        return refused(14, 0);
    }
    Ok(())
}

/// "single spaces between fields, LF after every line, no leading zeros"
fn line(fields: &[u32]) -> String {
    let fields: Vec<String> = fields.iter().map(u32::to_string).collect();
    fields.join(" ") + "\n"
}

/// The text of a graph that has its dummies: "no comments, predecessors in table order".
///
/// "First line n; then n+2 lines, task numbers 0..n+1 rising: number, time, count of predecessors, that many predecessors.
/// N = n+2."
fn text(graph: &Graph) -> String {
    let n = graph.weights.len() - DUMMIES;
    let mut text = line(&[word(n)]);
    for (task, &time) in graph.weights.iter().enumerate() {
        let preds = graph.predecessors(task);
        text += &line(&[&[word(task), time, word(preds.len())], preds].concat());
    }
    text
}

/// The writer: how many bytes it used, from the buffer's first on; refused, "all lent memory keeps its words".
///
/// "The writer is lent a byte buffer and says how many bytes it used; bytes beyond stay." "It checks as begin does up to
/// cycles first. Refused: 14, after 5, […]; a buffer too small is 1, last of all."
pub fn write(weights: &[u32], starts: &[u32], preds: &[u32], buffer: &mut [u8]) -> Result<u32, Refusal> {
    let graph = Graph {
        weights: weights.to_vec(),
        preds: Table {
            starts: starts.to_vec(),
            words: preds.to_vec(),
        },
    };
    check(Limits::ENGINE, &graph)?;
    judge_dummies(&graph)?;
    let text = text(&graph);
    let Some(used) = buffer.get_mut(..text.len()) else {
        return refused(1, 0);
    };
    used.copy_from_slice(text.as_bytes());
    Ok(word(text.len()))
}
