//! The declared layouts, held to the library: what it reads and writes in each word is what the field there says.

use crate::callers::Whose;
use crate::ffi::{self, Calls, Part, ReadReply, Reply, StepReply, WriteReply};
use crate::ids::{TaskId, WorkerId};
use crate::memory::{Ends, Entry, Memory, Row, Run};
use crate::tables::Tables;
use std::mem::{align_of, offset_of, size_of};

mod weak;

const P: usize = 2;
const K: usize = 4;
const NIL: u32 = 65_535;

/// Tasks 1 and 2 after task 0, task 3 after both.
fn tables() -> Tables {
    Tables {
        weights: vec![0, 5, 3, 0],
        pred_starts: vec![0, 0, 1, 2, 4],
        preds: [0, 0, 1, 2].map(TaskId::new).to_vec(),
    }
}

fn diamond() -> Memory {
    Memory::sized(tables(), P, K, Whose::Engine)
}

/// Begin and the steps of the engine, and those of the preview, which are declared alike.
const CALLERS: [Calls; 2] = [ffi::ENGINE, ffi::PREVIEW];

type Call = ffi::StepCall;

/// A step of worker 0.
fn by_0(call: Call, memory: &mut Memory) -> StepReply {
    call(memory, P, K, WorkerId::new(0))
}

fn begun(by: Calls) -> Memory {
    let mut memory = diamond();
    assert_eq!((by.begin)(&mut memory, P, K), Reply { number: 0, detail: 0 });
    memory
}

/// The diamond after these steps of worker 0.
fn after(by: Calls, calls: &[Call]) -> Memory {
    let mut memory = begun(by);
    for &call in calls {
        assert_eq!(by_0(call, &mut memory).number, 0);
    }
    memory
}

fn row(words: [u32; 6]) -> Row {
    let [phase, held, pointer, read, write, cursor] = words;
    Row {
        phase,
        held: TaskId::new(held),
        pointer: WorkerId::new(pointer),
        read,
        write,
        cursor,
    }
}

/// Words of 32 bits without gaps, in the order declared.
#[test]
fn sizes_and_places() {
    assert_eq!((size_of::<TaskId>(), align_of::<TaskId>()), (4, 4));
    assert_eq!((size_of::<WorkerId>(), align_of::<WorkerId>()), (4, 4));
    assert_eq!((size_of::<Row>(), align_of::<Row>()), (24, 4));
    assert_eq!((size_of::<Ends>(), align_of::<Ends>()), (12, 4));
    assert_eq!((size_of::<Entry>(), align_of::<Entry>()), (8, 4));
    assert_eq!((size_of::<Run>(), align_of::<Run>()), (8, 4));
    assert_eq!((size_of::<Reply>(), align_of::<Reply>()), (8, 4));
    assert_eq!((size_of::<StepReply>(), align_of::<StepReply>()), (20, 4));
    assert_eq!((size_of::<ReadReply>(), align_of::<ReadReply>()), (16, 4));
    assert_eq!((size_of::<WriteReply>(), align_of::<WriteReply>()), (12, 4));
    assert_eq!((size_of::<Part>(), align_of::<Part>()), (8, 4));

    let row = [
        offset_of!(Row, phase),
        offset_of!(Row, held),
        offset_of!(Row, pointer),
        offset_of!(Row, read),
        offset_of!(Row, write),
        offset_of!(Row, cursor),
    ];
    assert_eq!(row, [0, 4, 8, 12, 16, 20]);
    let ends = [offset_of!(Ends, head), offset_of!(Ends, tail), offset_of!(Ends, count)];
    assert_eq!(ends, [0, 4, 8]);
    assert_eq!([offset_of!(Entry, task), offset_of!(Entry, worker)], [0, 4]);
    assert_eq!([offset_of!(Run, entries), offset_of!(Run, accepted)], [0, 4]);
    assert_eq!([offset_of!(Reply, number), offset_of!(Reply, detail)], [0, 4]);
    let step = [
        offset_of!(StepReply, number),
        offset_of!(StepReply, detail),
        offset_of!(StepReply, kind),
        offset_of!(StepReply, first),
        offset_of!(StepReply, second),
    ];
    assert_eq!(step, [0, 4, 8, 12, 16]);
    let read = [
        offset_of!(ReadReply, number),
        offset_of!(ReadReply, detail),
        offset_of!(ReadReply, tasks),
        offset_of!(ReadReply, edges),
    ];
    assert_eq!(read, [0, 4, 8, 12]);
    let write = [
        offset_of!(WriteReply, number),
        offset_of!(WriteReply, detail),
        offset_of!(WriteReply, used),
    ];
    assert_eq!(write, [0, 4, 8]);
    assert_eq!([offset_of!(Part, place), offset_of!(Part, count)], [0, 4]);
}

/// "Everything is zeroed […]; held tasks become NIL", in the row of every worker.
#[test]
fn begin_writes_each_row() {
    CALLERS.into_iter().for_each(begin_writes_each_row_by);
}

fn begin_writes_each_row_by(by: Calls) {
    let mut memory = diamond();
    memory.rows.fill(row([7, 8, 9, 10, 11, 12]));
    assert_eq!((by.begin)(&mut memory, P, K).number, 0);
    assert_eq!(memory.rows, [row([0, NIL, 0, 0, 0, 0]); P]);
}

fn ends([head, tail, count]: [u32; 3]) -> Ends {
    Ends { head, tail, count }
}

/// Begin and the steps write head, tail and count of the ring that they put a task into or take one from.
#[test]
fn the_ends_of_a_ring() {
    CALLERS.into_iter().for_each(the_ends_of_a_ring_by);
}

fn the_ends_of_a_ring_by(by: Calls) {
    let mut memory = diamond();
    memory.ends.fill(ends([7, 8, 9]));
    assert_eq!((by.begin)(&mut memory, P, K).number, 0);
    let empty = ends([0; 3]);
    assert_eq!(memory.ends, [ends([0, 1, 1]), empty, empty, empty]);
    let steps: [(Call, [[u32; 3]; 2]); 5] = [
        (by.fetch, [[1, 1, 0], [0, 0, 0]]),
        (by.start, [[1, 1, 0], [0, 0, 0]]),
        (by.complete, [[1, 1, 0], [0, 0, 0]]),
        // task 1 to worker 0, task 2 to worker 1, into ring 2
        (by.release, [[1, 2, 1], [0, 0, 0]]),
        (by.release, [[1, 2, 1], [0, 1, 1]]),
    ];
    for (call, [first, third]) in steps {
        assert_eq!(by_0(call, &mut memory).number, 0);
        assert_eq!(memory.ends, [ends(first), empty, ends(third), empty]);
    }
}

/// Of ends that one field is damaged in, a Fetch and a Release that look at this ring are refused with 8, and no other step is.
#[test]
fn steps_read_the_ends_of_a_ring() {
    CALLERS.into_iter().for_each(steps_read_the_ends_of_a_ring_by);
}

fn steps_read_the_ends_of_a_ring_by(by: Calls) {
    let damages: [fn(&mut Ends); 5] = [
        |ends| ends.head = K as u32,
        |ends| ends.tail = K as u32,
        |ends| ends.count = K as u32 + 1,
        |ends| ends.count += 1,
        // a head, a tail and a count in their ranges, which don't fit together
        |ends| ends.head = 3,
    ];
    let [fetch, start, complete, release]: [Call; 4] = [by.fetch, by.start, by.complete, by.release];
    let steps = [
        (fetch, begun(by), true),
        (start, after(by, &[fetch]), false),
        (complete, after(by, &[fetch, start]), false),
        (release, after(by, &[fetch, start, complete]), true),
    ];
    for (call, memory, reads) in steps {
        for damage in damages {
            let mut damaged = memory.clone();
            damage(&mut damaged.ends[0]);
            let before = damaged.clone();
            assert_eq!(by_0(call, &mut damaged).number, if reads { 8 } else { 0 });
            assert!(!reads || damaged == before, "a refused step has written");
            // the rings of worker 1 that worker 1 fills aren't looked at
            let mut other = memory.clone();
            damage(&mut other.ends[3]);
            assert_eq!(by_0(call, &mut other).number, 0);
        }
    }
}

/// Each step writes the fields that its rule names.
#[test]
fn steps_write_the_fields_of_a_row() {
    CALLERS.into_iter().for_each(steps_write_the_fields_of_a_row_by);
}

fn steps_write_the_fields_of_a_row_by(by: Calls) {
    let other = row([0, NIL, 0, 0, 0, 0]);
    let mut memory = begun(by);
    let steps: [(Call, [u32; 6]); 5] = [
        // the phase, the held task, and the pointer behind ring 0
        (by.fetch, [1, 0, 1, 0, 0, 0]),
        (by.start, [2, 0, 1, 0, 0, 0]),
        // the task joins the buffer
        (by.complete, [0, NIL, 1, 0, 1, 0]),
        // the cursor advances; after the second successor the read place does
        (by.release, [0, NIL, 1, 0, 1, 1]),
        (by.release, [0, NIL, 1, 1, 1, 0]),
    ];
    for (call, words) in steps {
        assert_eq!(by_0(call, &mut memory).number, 0);
        assert_eq!(memory.rows, [row(words), other]);
    }
}

/// Of a row that one field is damaged in, a step is refused with 8 exactly if its rule reads that field.
#[test]
fn steps_read_the_fields_of_a_row() {
    CALLERS.into_iter().for_each(steps_read_the_fields_of_a_row_by);
}

fn steps_read_the_fields_of_a_row_by(by: Calls) {
    let damages: [fn(&mut Row); 6] = [
        |row| row.phase = 3,
        |row| row.held = TaskId::new(4),
        |row| row.pointer = WorkerId::new(P as u32),
        |row| row.read = 2,
        |row| row.write = 5,
        |row| row.cursor = 2,
    ];
    let [fetch, start, complete, release]: [Call; 4] = [by.fetch, by.start, by.complete, by.release];
    let steps = [
        (fetch, begun(by), [true, false, true, false, false, false]),
        (start, after(by, &[fetch]), [true, false, false, false, false, false]),
        (
            complete,
            after(by, &[fetch, start]),
            [true, true, false, true, true, false],
        ),
        (
            release,
            after(by, &[fetch, start, complete]),
            [true, false, false, true, true, true],
        ),
    ];
    for (call, memory, reads) in steps {
        assert_eq!(by_0(call, &mut memory.clone()).number, 0);
        for (damage, read) in damages.iter().zip(reads) {
            let mut damaged = memory.clone();
            damaged.rows.iter_mut().take(1).for_each(damage);
            let before = damaged.clone();
            let number = by_0(call, &mut damaged).number;
            assert_eq!(number, if read { 8 } else { 0 });
            assert!(!read || damaged == before, "a refused step has written");
            // the other worker's row isn't read
            let mut other = memory.clone();
            other.rows.iter_mut().skip(1).for_each(damage);
            assert_eq!(by_0(call, &mut other).number, 0);
        }
    }
}

fn step_reply(words: [u32; 5]) -> StepReply {
    let [number, detail, kind, first, second] = words;
    StepReply {
        number,
        detail,
        kind,
        first,
        second,
    }
}

/// Each field of a step's reply, told apart from the others by its value.
#[test]
fn replies_of_steps() {
    CALLERS.into_iter().for_each(replies_of_steps_by);
}

fn replies_of_steps_by(by: Calls) {
    let mut memory = begun(by);
    let fetch = (by.fetch)(&mut memory, P, K, WorkerId::new(9));
    assert_eq!(fetch, step_reply([7, 9, 0, 0, 0]));
    // "Complete in phase 0"
    assert_eq!(by_0(by.complete, &mut memory), step_reply([9, 0, 0, 0, 0]));
    assert_eq!(by_0(by.fetch, &mut memory), step_reply([0, 0, 1, 0, 0]));
    assert_eq!(by_0(by.start, &mut memory), step_reply([0, 0, 0, 0, 0]));
    assert_eq!(by_0(by.release, &mut memory), step_reply([9, 2, 0, 0, 0]));
    assert_eq!(by_0(by.complete, &mut memory), step_reply([0, 0, 0, 0, 0]));
    assert_eq!(by_0(by.release, &mut memory), step_reply([0, 0, 3, 1, 0]));
    assert_eq!(by_0(by.release, &mut memory), step_reply([0, 0, 3, 2, 1]));
    let fetch = (by.fetch)(&mut memory, P, K, WorkerId::new(1));
    assert_eq!(fetch, step_reply([0, 0, 1, 2, 0]));
    for call in [by.fetch, by.start, by.complete] {
        assert_eq!(by_0(call, &mut memory).number, 0);
    }
    // task 3 still waits for task 2
    assert_eq!(by_0(by.release, &mut memory), step_reply([0, 0, 2, 1, 0]));
    assert_eq!((memory.run.entries, memory.run.accepted), (2, 10));
    let entries = [(0, 0), (1, 0)].map(|(task, worker)| Entry {
        task: TaskId::new(task),
        worker: WorkerId::new(worker),
    });
    assert_eq!(memory.executed[..2], entries);
}

fn read_reply(words: [u32; 4]) -> ReadReply {
    let [number, detail, tasks, edges] = words;
    ReadReply {
        number,
        detail,
        tasks,
        edges,
    }
}

/// The words of the record and of the run where load windows read them; 15, a bad task, worker or count of entries, and all words
/// of the results.
#[test]
fn words_of_load_windows() {
    let mut memory = begun(ffi::ENGINE);
    let accepted = Reply { number: 0, detail: 0 };
    let [damaged, bad_window] = [8, 15].map(|number| Reply { number, detail: 0 });
    assert_eq!(ffi::windows(&memory, &mut [], P, 1), bad_window);
    memory.run.entries = 3;
    for (place, (task, worker)) in [(0, 0), (2, 1), (1, 0)].into_iter().enumerate() {
        memory.executed[place] = Entry {
            task: TaskId::new(task),
            worker: WorkerId::new(worker),
        };
    }
    let before = memory.clone();
    let mut results = [7; 6];
    assert_eq!(ffi::windows(&memory, &mut results, P, 2), accepted);
    assert_eq!(results, [0, 3, 3, 5, 3, 2]);
    assert_eq!(memory, before);
    // three tasks, but two workers
    memory.executed[1].worker = WorkerId::new(2);
    assert_eq!(ffi::windows(&memory, &mut results, P, 2), damaged);
    assert_eq!(ffi::windows(&memory, &mut [7; 8], P + 1, 2), accepted);
    memory.executed[1].worker = WorkerId::new(1);
    memory.executed[1].task = TaskId::new(4);
    assert_eq!(ffi::windows(&memory, &mut results, P, 2), damaged);
    memory.run.entries = 5;
    assert_eq!(ffi::windows(&memory, &mut results, P, 0), damaged);
    assert_eq!(results, [0, 3, 3, 5, 3, 2]);
}

#[test]
fn replies_of_the_other_calls() {
    let [weights, starts] = [[0; 3].as_slice(), &[0, 0, 1, 2]];
    let cycle = [2, 1].map(TaskId::new);
    let check = ffi::check_graph(1_024, 8_192, weights, starts, &cycle);
    assert_eq!(check, Reply { number: 5, detail: 1 });
    // beyond the limits that are handed over
    let check = ffi::check_graph(2, 8_192, weights, starts, &cycle);
    assert_eq!(check, Reply { number: 2, detail: 0 });
    let check = ffi::check_graph(3, 1, weights, starts, &cycle);
    assert_eq!(check, Reply { number: 2, detail: 0 });

    let memory = begun(ffi::ENGINE);
    let judged = |side, task| ffi::judge_lookup(&memory, side, TaskId::new(task));
    let part = |side, task| ffi::lookup(&memory, side, TaskId::new(task));
    assert_eq!(judged(1, 0), Reply { number: 0, detail: 0 });
    assert_eq!(judged(1, 4), Reply { number: 3, detail: 4 });
    assert_eq!(part(1, 0), Part { place: 0, count: 2 });
    assert_eq!(part(0, 2), Part { place: 1, count: 1 });
    assert_eq!(part(1, 2), Part { place: 3, count: 1 });
    assert_eq!(part(1, 4), Part { place: 0, count: 0 });

    let read = |text: &[u8]| {
        let (mut weights, mut starts, mut preds) = (vec![0; 1_024], vec![0; 1_025], vec![TaskId::new(0); 8_192]);
        ffi::read_text(text, &mut weights, &mut starts, &mut preds)
    };
    assert_eq!(read(b"1\n0 0 0\n1 7 1 0\n2 0 1 1\n"), read_reply([0, 0, 3, 2]));
    assert_eq!(read(b"1\n0 0 0\n1 7 2 0\n2 0 1 1\n"), read_reply([13, 3, 0, 0]));
}

/// The diamond's five lines, 34 bytes; of a longer buffer the others stay.
#[test]
fn replies_of_the_writer() {
    let Tables {
        weights,
        pred_starts,
        preds,
    } = tables();
    let write = |weights: &[u32], preds: &[TaskId], bytes: usize| {
        let mut text = vec![b'x'; bytes];
        let WriteReply { number, detail, used } = ffi::write_text(weights, &pred_starts, preds, &mut text);
        ([number, detail, used], text)
    };
    let text = b"2\n0 0 0\n1 5 1 0\n2 3 1 0\n3 0 2 1 2\n";
    assert_eq!(write(&weights, &preds, 34), ([0, 0, 34], text.to_vec()));
    assert_eq!(write(&weights, &preds, 36), ([0, 0, 34], [&text[..], b"xx"].concat()));
    assert_eq!(write(&weights, &preds, 33), ([1, 0, 0], vec![b'x'; 33]));
    assert_eq!(write(&weights, &preds, 0), ([1, 0, 0], vec![]));
    // task 1 after itself; a last weight
    let itself = [1, 0, 1, 2].map(TaskId::new);
    assert_eq!(write(&weights, &itself, 34), ([5, 1, 0], vec![b'x'; 34]));
    assert_eq!(write(&[0, 5, 3, 1], &preds, 34), ([14, 0, 0], vec![b'x'; 34]));
}
