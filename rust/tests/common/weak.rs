//! The board of weak jobs, and the boards that their tests start from.

pub use crate::any_board::{refused, HUGE, MARK};

use crate::any_board::{self, Tried};
use engine_model::engine::Engine;
use engine_model::engines;
use engine_model::memory::{Step, NIL};
use engine_model::model::Refusal;
use engine_model::weak::{Copied, Memory, Outcome};

pub type Reply = Result<Outcome, Refusal>;

pub fn fetched(task: u32, pred: u32) -> Reply {
    let copy = Copied { task, pred };
    Ok(Outcome::Fetched { copy })
}

pub fn placed(task: u32, pred: u32, owner: u32) -> Reply {
    let copy = Copied { task, pred };
    Ok(Outcome::Placed { copy, owner })
}

pub const MOVED: Reply = Ok(Outcome::Moved);

pub type Board = any_board::Board<Memory>;

impl Tried for Memory {
    fn engines() -> Vec<Engine<Memory>> {
        engines::weak()
    }
}

impl Board {
    /// Fetches this copy, starts and completes it.
    pub fn execute(&mut self, worker: u32, task: u32, pred: u32) {
        assert_eq!(self.fetch(worker), fetched(task, pred));
        assert_eq!(self.start(worker), MOVED);
        assert_eq!(self.complete(worker), MOVED);
    }

    /// The desk's turns: "Turns go 0, 1, 0, 1, …; each takes the first accepted of Release, Fetch, Start, Complete, or nothing"; how
    /// many steps are accepted until none is.
    pub fn desk(&mut self) -> usize {
        let order = [Step::Release, Step::Fetch, Step::Start, Step::Complete];
        let (mut accepted, mut idle) = (0, 0);
        for worker in (0..self.p as u32).cycle() {
            if idle == self.p {
                break;
            }
            let taken = order.iter().any(|&step| self.step(worker, step).is_ok());
            accepted += usize::from(taken);
            idle = if taken { 0 } else { idle + 1 };
        }
        accepted
    }

    /// What the counters of a worker add up to.
    pub fn sum(&self, worker: usize) -> i32 {
        self.memory.counters[worker * self.p..][..self.p].iter().sum()
    }

    /// The entries of the record, task, predecessor and worker each.
    pub fn record(&self) -> Vec<[u32; 3]> {
        let entries = self.memory.executed.chunks_exact(3).take(self.memory.run[0] as usize);
        entries.map(|entry| [entry[0], entry[1], entry[2]]).collect()
    }
}

/// The diamond: 1 and 2 after 0, 3 after 1 and 2, with the desk's P 2 and K 4.
pub fn diamond() -> Board {
    Board::begun(&[0, 5, 3, 0], &[&[], &[0], &[0], &[1, 2]], 2, 4)
}

/// Two roots and three tasks after both of them, P 2, K 2: worker 0 has made the first copies, all fixed to itself, and worker 1 has
/// completed its root and filled its ring of worker 0 with the later copies of tasks 2 and 3.
pub fn later_copies() -> Board {
    let mut board = Board::begun(&[0, 9, 1, 1, 1], &[&[], &[], &[0, 1], &[0, 1], &[0, 1]], 2, 2);
    board.execute(0, 0, NIL);
    assert_eq!(board.release(0), placed(2, 0, 0));
    assert_eq!(board.release(0), placed(3, 0, 0));
    board.execute(0, 2, 0);
    assert_eq!(board.release(0), placed(4, 0, 0));
    board.execute(1, 1, NIL);
    assert_eq!(board.release(1), placed(2, 1, 0));
    assert_eq!(board.release(1), placed(3, 1, 0));
    board
}
