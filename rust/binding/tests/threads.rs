//! The example with threads, held to what its page says.

// its main prints
#[allow(dead_code)]
#[path = "../examples/threads.rs"]
mod threads;

use std::collections::BTreeSet;
use std::sync::atomic::{AtomicBool, Ordering};
use std::sync::{mpsc, Arc};
use std::thread;
use std::time::Duration;
use threads::{mosaic, seams, Desk, Wake, FLIGHT, TILES};
use yolluvek::{Job, Phase, Refusal, TaskId, WorkerId};

fn desk() -> Desk {
    Desk::new(Job::from_tables(mosaic(), 4, 64)).expect("a task graph")
}

/// Runs the mosaic. A thread that nobody wakes is a failure, not a test that never ends.
fn ended(run: impl Fn(&Desk, WorkerId, TaskId) + Send + Sync + 'static) -> (Arc<Desk>, Result<(), Refusal>) {
    let desk = Arc::new(desk());
    let (tell, told) = mpsc::channel();
    let runs = Arc::clone(&desk);
    thread::spawn(move || tell.send(runs.run(run)));
    let ended = told.recv_timeout(Duration::from_secs(60));
    (desk, ended.expect("all threads come to their end"))
}

/// 300 tiles, each seam between two that lie side by side or one below the other; one task before the tiles.
#[test]
fn the_mosaic() {
    assert_eq!(TILES.count(), 300);
    let place = |tile: u32| ((tile - 1) / 20, (tile - 1) % 20);
    let apart = |[one, other]: [u32; 2]| {
        let ((row, column), (other_row, other_column)) = (place(one), place(other));
        (row.abs_diff(other_row), column.abs_diff(other_column))
    };
    let seams = seams();
    let different: BTreeSet<[u32; 2]> = seams.iter().copied().collect();
    // 15 rows of 19, and 14 of 20
    assert_eq!((seams.len(), different.len()), (565, 565));
    assert!(seams.iter().flatten().all(|tile| TILES.contains(tile)));
    assert!(seams.iter().all(|&tiles| [(0, 1), (1, 0)].contains(&apart(tiles))));
    let tables = mosaic();
    assert_eq!((tables.weights.len(), tables.preds.len()), (866, 300 + 2 * 565));
    assert_eq!(tables.check(), Ok(()));
}

/// No seam is blended before both its tiles are corrected, whichever threads do it; all is done at the end.
#[test]
fn seams_after_their_tiles() {
    let done: Arc<Vec<AtomicBool>> = Arc::new((0..866).map(|_| AtomicBool::new(false)).collect());
    let is_done = |done: &[AtomicBool], task: u32| done[task as usize].load(Ordering::SeqCst);
    let (seams, shared) = (seams(), Arc::clone(&done));
    let (desk, result) = ended(move |_, _, task| {
        let number = task.number();
        match number.checked_sub(301) {
            Some(seam) => assert!(seams[seam as usize].iter().all(|&tile| is_done(&shared, tile))),
            None => assert!(task == FLIGHT || is_done(&shared, 0)),
        }
        let before = shared[number as usize].swap(true, Ordering::SeqCst);
        assert!(!before, "task {task} is run twice");
    });
    assert_eq!(result, Ok(()));
    let state = desk.lock();
    assert!(state.job.is_finished());
    assert!((0..866).all(|task| is_done(&done, task)));
    // 3N + E
    assert_eq!(state.job.accepted(), 3 * 866 + 1_430);
    assert!(state.no_room >= 1, "300 tiles don't fit into 4 rings of 64");
    for worker in state.job.worker_ids() {
        let completed = state.job.record().iter().filter(|entry| entry.worker == worker).count();
        assert!(completed >= 64, "worker {worker} has a ring full of tiles");
    }
}

/// The flight is over once the other three sleep. Then "the worker with the least […], the lowest number on equal sums":
/// tile 1 stays with worker 0, and tiles 2, 3 and 4 wake workers 1, 2 and 3.
#[test]
fn the_owners_of_tasks_are_woken() {
    let (desk, result) = ended(|desk, _, task| {
        while task == FLIGHT && desk.lock().asleep != [false, true, true, true] {
            thread::yield_now();
        }
    });
    assert_eq!(result, Ok(()));
    let state = desk.lock();
    let first = [1, 2, 3].map(|number| Wake {
        // Fetch, Start, Complete, and a Release for each tile
        accepted: 4 + number as usize,
        by: WorkerId::new(0),
        task: TaskId::new(number + 1),
        woken: WorkerId::new(number),
    });
    assert_eq!(state.wakes[..3], first);
    assert!(state.wakes.iter().all(|wake| wake.by != wake.woken));
}

/// Where a thread fails, the others aren't left asleep.
#[test]
fn a_failure_stops_all() {
    let (desk, result) = ended(|desk, worker, task| {
        if task == FLIGHT {
            // the step behind the thread's back makes its own Complete fail
            desk.lock().job.complete(worker).expect("it is running");
        }
    });
    assert_eq!(result, Err(Refusal::WrongPhase { phase: Phase::Idle }));
    assert!(!desk.lock().job.is_finished());
}
