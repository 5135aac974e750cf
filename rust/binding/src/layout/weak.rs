//! The layouts of a weak job's lists: slots, rows, entries, fixed workers, run words and the step's reply.

use super::{tables, K, NIL, P};
use crate::callers::Whose;
use crate::ffi::{self, Reply, StepCall, WeakStepReply, WEAK};
use crate::ids::{TaskId, WorkerId};
use crate::kinds::{Copied, Recorded, Weak, WeakRun};
use crate::memory::{Memory, Row, Words};
use std::mem::{align_of, offset_of, size_of};

type Call = StepCall<Weak>;

/// The diamond begun weak.
fn begun() -> Memory<Weak> {
    let mut memory = Memory::sized(tables(), P, K, Whose::Engine);
    let begin = (WEAK.begin)(&mut memory, P, K);
    assert_eq!(begin, Reply { number: 0, detail: 0 });
    memory
}

fn by(worker: u32, call: Call, memory: &mut Memory<Weak>) -> WeakStepReply {
    call(memory, P, K, WorkerId::new(worker))
}

/// The diamond after these steps of worker 0.
fn after(calls: &[Call]) -> Memory<Weak> {
    let mut memory = begun();
    for &call in calls {
        assert_eq!(by(0, call, &mut memory).number, 0);
    }
    memory
}

fn copied([task, predecessor]: [u32; 2]) -> Copied {
    Copied {
        task: TaskId::new(task),
        predecessor,
    }
}

fn reply(words: [u32; 6]) -> WeakStepReply {
    let [number, detail, kind, first, second, third] = words;
    WeakStepReply {
        number,
        detail,
        kind,
        first,
        second,
        third,
    }
}

/// Words of 32 bits without gaps, in the order declared.
#[test]
fn sizes_and_places() {
    assert_eq!((size_of::<Copied>(), align_of::<Copied>()), (8, 4));
    assert_eq!((size_of::<Row<Copied>>(), align_of::<Row<Copied>>()), (28, 4));
    assert_eq!((size_of::<Recorded>(), align_of::<Recorded>()), (12, 4));
    assert_eq!((size_of::<WeakRun>(), align_of::<WeakRun>()), (12, 4));
    assert_eq!((size_of::<WeakStepReply>(), align_of::<WeakStepReply>()), (24, 4));
    assert_eq!([offset_of!(Copied, task), offset_of!(Copied, predecessor)], [0, 4]);
    let row = [
        offset_of!(Row<Copied>, phase),
        offset_of!(Row<Copied>, held),
        offset_of!(Row<Copied>, pointer),
        offset_of!(Row<Copied>, read),
        offset_of!(Row<Copied>, write),
        offset_of!(Row<Copied>, cursor),
    ];
    assert_eq!(row, [0, 4, 12, 16, 20, 24]);
    assert_eq!([offset_of!(Recorded, copy), offset_of!(Recorded, worker)], [0, 8]);
    assert_eq!([offset_of!(WeakRun, run), offset_of!(WeakRun, roots)], [0, 8]);
    let step = [
        offset_of!(WeakStepReply, number),
        offset_of!(WeakStepReply, detail),
        offset_of!(WeakStepReply, kind),
        offset_of!(WeakStepReply, first),
        offset_of!(WeakStepReply, second),
        offset_of!(WeakStepReply, third),
    ];
    assert_eq!(step, [0, 4, 8, 12, 16, 20]);
}

/// One root, fixed to worker 0 with degree 1 and in its ring; the hands hold NIL twice.
#[test]
fn begin_writes_each_list() {
    let memory = begun();
    for row in &memory.rows {
        assert_eq!(row.words(), [0, NIL, NIL, 0, 0, 0, 0]);
    }
    assert_eq!(memory.degrees, [1, 1, 1, 2]);
    assert_eq!(memory.fixed, [0, 65_535, 65_535, 65_535]);
    assert_eq!(memory.rings[0], copied([0, NIL]));
    assert_eq!(memory.run.words(), [0, 0, 1]);
}

/// Each field of a step's reply and of its worker's row, told apart from the others by its value.
#[test]
fn replies_and_rows_of_steps() {
    let mut memory = begun();
    assert_eq!(by(9, WEAK.fetch, &mut memory), reply([7, 9, 0, 0, 0, 0]));
    assert_eq!(by(0, WEAK.complete, &mut memory), reply([9, 0, 0, 0, 0, 0]));
    let steps: [(u32, Call, [u32; 6], [u32; 7]); 9] = [
        (0, WEAK.fetch, [0, 0, 1, 0, NIL, 0], [1, 0, NIL, 1, 0, 0, 0]),
        (0, WEAK.start, [0; 6], [2, 0, NIL, 1, 0, 0, 0]),
        (0, WEAK.complete, [0; 6], [0, NIL, NIL, 1, 0, 1, 0]),
        // task 1 to worker 0, task 2 to worker 1
        (0, WEAK.release, [0, 0, 2, 1, 0, 0], [0, NIL, NIL, 1, 0, 1, 1]),
        (0, WEAK.release, [0, 0, 2, 2, 0, 1], [0, NIL, NIL, 1, 1, 1, 0]),
        (1, WEAK.fetch, [0, 0, 1, 2, 0, 0], [1, 2, 0, 1, 0, 0, 0]),
        (1, WEAK.start, [0; 6], [2, 2, 0, 1, 0, 0, 0]),
        (1, WEAK.complete, [0; 6], [0, NIL, NIL, 1, 0, 1, 0]),
        // worker 0 still has the weight of task 1
        (1, WEAK.release, [0, 0, 2, 3, 2, 1], [0, NIL, NIL, 1, 1, 1, 0]),
    ];
    for (worker, call, answer, row) in steps {
        assert_eq!(by(worker, call, &mut memory), reply(answer));
        assert_eq!(memory.rows[worker as usize].words(), row);
    }
    assert_eq!(memory.fixed, [0, 0, 1, 1]);
    // behind the root in the ring of 0 that 0 fills, and in both rings of 1
    let rings = [1, 2 * K, 3 * K].map(|place| memory.rings[place]);
    assert_eq!(rings, [[1, 0], [2, 0], [3, 2]].map(copied));
    let entries = memory.executed.iter().take(2).map(|entry| entry.words());
    assert_eq!(entries.collect::<Vec<_>>(), [[0, NIL, 0], [2, 0, 1]]);
    assert_eq!(memory.degrees, [0, 1, 0, 2]);
    assert_eq!(memory.run.words(), [2, 9, 1]);
}

/// A damaged word, and which of Fetch, Start, Complete and Release read it.
type Damage = (fn(&mut Memory<Weak>), [bool; 4]);

/// Of a list that one word is damaged in, a step is refused with 8 exactly if its rule reads that word.
#[test]
fn steps_read_the_words() {
    let damages: [Damage; 15] = [
        (|memory| memory.rows[0].phase = 3, [true; 4]),
        (
            |memory| memory.rows[0].held.task = TaskId::new(4),
            [false, false, true, false],
        ),
        (
            |memory| memory.rows[0].held.predecessor = 4,
            [false, false, true, false],
        ),
        (
            |memory| memory.rows[0].pointer = WorkerId::new(P as u32),
            [true, false, false, false],
        ),
        (|memory| memory.rows[0].read = 2, [false, false, true, true]),
        (|memory| memory.rows[0].write = 5, [false, false, true, true]),
        (|memory| memory.rows[0].cursor = 2, [false, false, false, true]),
        (
            |memory| memory.rings[0].task = TaskId::new(4),
            [true, false, false, false],
        ),
        (|memory| memory.rings[0].predecessor = 4, [true, false, false, false]),
        (|memory| memory.fixed[1] = P as u32, [false, false, false, true]),
        (|memory| memory.degrees[0] = 0, [false, false, true, false]),
        (|memory| memory.run.roots = 5, [true; 4]),
        (|memory| memory.run.run.accepted = 19, [true; 4]),
        (|memory| memory.run.run.entries = 6, [false, false, true, false]),
        // the other worker's row
        (|memory| memory.rows[1].phase = 3, [false; 4]),
    ];
    let [fetch, start, complete, release]: [Call; 4] = [WEAK.fetch, WEAK.start, WEAK.complete, WEAK.release];
    let steps = [
        (fetch, begun()),
        (start, after(&[fetch])),
        (complete, after(&[fetch, start])),
        (release, after(&[fetch, start, complete])),
    ];
    for (place, (call, memory)) in steps.into_iter().enumerate() {
        assert_eq!(by(0, call, &mut memory.clone()).number, 0);
        for (which, (damage, reads)) in damages.iter().enumerate() {
            let mut damaged = memory.clone();
            damage(&mut damaged);
            let before = damaged.clone();
            let number = by(0, call, &mut damaged).number;
            assert_eq!(number, if reads[place] { 8 } else { 0 }, "step {place}, damage {which}");
            assert!(!reads[place] || damaged == before, "a refused step has written");
        }
    }
}

/// The judging call and the lookup are lent a weak job's tables as a plain one's.
#[test]
fn the_lookup_takes_a_weak_job_s_tables() {
    let memory = begun();
    let judged = ffi::judge_lookup(&memory, 1, TaskId::new(0));
    assert_eq!(judged, Reply { number: 0, detail: 0 });
    let part = ffi::lookup(&memory, 1, TaskId::new(2));
    assert_eq!((part.place, part.count), (3, 1));
}
