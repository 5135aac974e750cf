//! The board of plain jobs, and the boards that these tests start from.

pub use crate::any_board::{refused, HUGE, MARK};

use crate::any_board::{self, Tried};
use engine_model::engine::Engine;
use engine_model::engines;
use engine_model::memory::{List, Memory, Outcome};
use engine_model::model::Refusal;

pub type Reply = Result<Outcome, Refusal>;

pub fn fetched(task: u32) -> Reply {
    Ok(Outcome::Fetched { task })
}

pub fn degree_left(degree: u32) -> Reply {
    Ok(Outcome::DegreeLeft { degree })
}

pub fn placed(task: u32, owner: u32) -> Reply {
    Ok(Outcome::Placed { task, owner })
}

pub const MOVED: Reply = Ok(Outcome::Moved);

pub type Board = any_board::Board<Memory>;

impl Tried for Memory {
    fn engines() -> Vec<Engine> {
        engines::all()
    }
}

impl Board {
    /// Fetch, Start and Complete of this task by this worker.
    pub fn execute(&mut self, worker: u32, task: u32) {
        assert_eq!(self.fetch(worker), fetched(task));
        assert_eq!(self.start(worker), MOVED);
        assert_eq!(self.complete(worker), MOVED);
    }

    /// The same board with one counter written.
    pub fn with_counter(&self, owner: usize, filler: usize, value: i32) -> Board {
        self.with(List::Counters, owner * self.p + filler, value as u32)
    }
}

pub const LIMIT: i32 = 1 << 30;

/// The diamond of the desk program: 1 and 2 after 0, 3 after 1 and 2.
pub const DIAMOND: [&[u32]; 4] = [&[], &[0], &[0], &[1, 2]];

pub fn diamond(p: usize, k: usize) -> Board {
    Board::begun(&[0, 5, 3, 0], &DIAMOND, p, k)
}

/// Tasks 1 and 2 after 0: 3 tasks, 2 edges.
pub const FORK: [&[u32]; 3] = [&[], &[0], &[0]];

pub fn fork(p: usize, k: usize) -> Board {
    Board::begun(&[4, 5, 6], &FORK, p, k)
}

/// The fork after Fetch, Start and Complete of task 0 by worker 0, which can now release 1 and 2.
pub fn fork_to_release(p: usize, k: usize) -> Board {
    let mut board = fork(p, k);
    board.execute(0, 0);
    board
}

/// Tasks 1, 2 and 3 after 0, as in the example of 11, which "gains an edge 0→3": worker 0 has completed task 0.
pub fn trident_to_release(p: usize, k: usize) -> Board {
    let mut board = Board::begun(&[4, 5, 6, 7], &[&[], &[0], &[0], &[0]], p, k);
    board.execute(0, 0);
    board
}

/// Tasks 0 and 1 are the predecessors of 2; worker 0 has completed both, so that its next Release leaves degree 1.
pub fn join_to_release(p: usize, k: usize) -> Board {
    let mut board = Board::begun(&[4, 5, 6], &[&[], &[], &[0, 1]], p, k);
    assert_eq!(p, 1);
    board.execute(0, 0);
    board.execute(0, 1);
    board
}
