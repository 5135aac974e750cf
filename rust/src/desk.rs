//! The desk program in the words of document 01.

use crate::engine::{begin, step};
use crate::memory::{Memory, Step, ACCEPTED};
use crate::model::{Refusal, MAX_EDGES, MAX_TASKS};
use crate::reader::read;

/// "P 2, K 4."
pub(crate) const P: usize = 2;
pub(crate) const K: usize = 4;

/// "each takes the first accepted of Release, Fetch, Start, Complete"
pub(crate) const TURN: [Step; 4] = [Step::Release, Step::Fetch, Step::Start, Step::Complete];

/// What the program prints for this text.
///
/// "A refusal by the reader or by begin prints one line alone, "refused", number, detail, parted by single spaces".
pub fn output(text: &[u8]) -> Vec<u8> {
    match run(text) {
        Ok(memory) => printed(&memory).into_bytes(),
        Err(Refusal { number, detail }) => format!("refused {number} {detail}\n").into_bytes(),
    }
}

/// The lent lists when the run is over.
fn run(text: &[u8]) -> Result<Memory, Refusal> {
    let mut memory = begun(text)?;
    let all = 3 * memory.n() + memory.e();
    let mut idle = 0;
    let mut worker = 0;
    // "Turns go 0, 1, 0, 1, … until 3N+E are accepted."
    while (memory.run[ACCEPTED] as usize) < all {
        idle = if turn(&mut memory, worker) { 0 } else { idle + 1 };
        assert!(idle < P, "an unfinished run has a step that would be accepted");
        worker = (worker + 1) % P as u32;
    }
    Ok(memory)
}

/// "Reads a text from standard input, P 2, K 4."
pub(crate) fn begun(text: &[u8]) -> Result<Memory, Refusal> {
    let mut weights = vec![0; MAX_TASKS];
    let mut starts = vec![0; MAX_TASKS + 1];
    let mut preds = vec![0; MAX_EDGES];
    let (n, e) = read(text, &mut weights, &mut starts, &mut preds)?;
    weights.truncate(n as usize);
    starts.truncate(n as usize + 1);
    preds.truncate(e as usize);
    let mut memory = Memory::sized(weights, starts, preds, P, K, 0);
    begin(&mut memory, P, K)?;
    Ok(memory)
}

/// "each takes the first accepted of Release, Fetch, Start, Complete, or nothing": whether a step is taken.
fn turn(memory: &mut Memory, worker: u32) -> bool {
    TURN.iter().any(|&each| step(memory, P, K, worker, each).is_ok())
}

/// "It prints N and the accepted word, then per entry task and worker."
fn printed(memory: &Memory) -> String {
    let first = format!("{} {}\n", memory.n(), memory.run[ACCEPTED]);
    let entries = memory.executed.chunks(2);
    let lines = entries.map(|entry| format!("{} {}\n", entry[0], entry[1]));
    std::iter::once(first).chain(lines).collect()
}
