//! Document 02, No. 2, on every preview beside every engine: "It has begin and the four steps, and takes N to 128, E to 512,
//! P to 4, K to 8. Both call one core […]. Beyond its limits the preview gives 2, in the same place."

#[path = "common/diamond.rs"]
mod diamond;

use engine_model::engine::Engine;
use engine_model::engines;
use engine_model::memory::{List, Memory, Outcome, Step};
use engine_model::model::{Answer, Refusal, Table};

/// A word that stands in the lists before begin.
const MARK: u32 = 777_777;

fn refused<T>(number: u32, detail: u32) -> Result<T, Refusal> {
    Err(Refusal { number, detail })
}

/// Lists for these predecessors, sized for P and K, every weight 1 and every other word the mark.
fn lent(lists: &[Vec<u32>], p: usize, k: usize) -> Memory {
    let table = Table::of(lists);
    Memory::sized(vec![1; lists.len()], table.starts, table.words, p, k, MARK)
}

/// That many tasks without edges.
fn roots(n: usize) -> Vec<Vec<u32>> {
    vec![Vec::new(); n]
}

/// That many tasks, each but the first after as many of those before it as it takes to have so many edges.
fn dense(n: usize, edges: usize) -> Vec<Vec<u32>> {
    let mut lists = roots(n);
    let pairs = (1..n).flat_map(|back| (back..n).map(move |late| (late - back, late)));
    for (early, late) in pairs.take(edges) {
        lists[late].push(early as u32);
    }
    assert_eq!(lists.concat().len(), edges);
    lists
}

/// What these callers answer to a call, and the words that it leaves: all the same. A refused call leaves every word.
fn agreed<T: Copy + PartialEq + std::fmt::Debug>(
    callers: &[Engine],
    memory: &Memory,
    call: impl Fn(&Engine, &mut Memory) -> Result<T, Refusal>,
) -> (Result<T, Refusal>, Memory) {
    let mut found = callers.iter().map(|caller| {
        let mut words = memory.clone();
        let answer = call(caller, &mut words);
        assert!(
            answer.is_ok() || words == *memory,
            "{}: a refused call writes",
            caller.name
        );
        (answer, words)
    });
    let first = found.next().expect("there is a caller");
    found.for_each(|other| assert!(other == first, "{:?} is not {:?}", other.0, first.0));
    first
}

/// What the previews and what the engines answer, each with the words left.
type Both<T> = [(Result<T, Refusal>, Memory); 2];

fn begin(memory: &Memory, p: usize, k: usize) -> Both<()> {
    [engines::previews(), engines::all()]
        .map(|callers| agreed(&callers, memory, |caller, words| (caller.begin)(words, p, k)))
}

fn step(memory: &Memory, p: usize, k: usize, worker: u32, step: Step) -> Both<Outcome> {
    [engines::previews(), engines::all()].map(|callers| {
        agreed(&callers, memory, |caller, words| {
            (caller.step)(words, p, k, worker, step)
        })
    })
}

fn answers<T: Copy>([preview, engine]: &Both<T>) -> [Result<T, Refusal>; 2] {
    [preview.0, engine.0]
}

/// Within the preview's limits both answer the same and leave the same words.
fn assert_same<T: Copy + PartialEq + std::fmt::Debug>([preview, engine]: &Both<T>) {
    assert_eq!(preview.0, engine.0);
    assert_eq!(preview.1, engine.1);
}

/// Begin on lists of the stated lengths, and then every step: by the preview, within its limits, the engine's own call;
/// beyond them 2, whatever the engine answers.
fn assert_limit(lists: &[Vec<u32>], p: usize, k: usize, engine: Answer, within: bool) {
    let memory = lent(lists, p, k);
    let begun = begin(&memory, p, k);
    let expected = if within { engine } else { refused(2, 0) };
    assert_eq!(answers(&begun), [expected, engine], "N {}, P {p}, K {k}", memory.n());
    // steps on what the engine has begun, or on marks
    let words = &begun[1].1;
    for which in Step::ALL {
        let stepped = step(words, p, k, 0, which);
        if within {
            assert_same(&stepped);
        } else {
            assert_eq!(stepped[0].0, refused(2, 0), "{which:?}");
        }
    }
}

/// "128 roots at P 4, K 8: 6 with detail 128; 129 tasks: 2"
#[test]
fn tasks() {
    assert_limit(&roots(128), 4, 8, refused(6, 128), true);
    assert_limit(&roots(129), 4, 8, refused(6, 129), false);
    assert_limit(&dense(128, 127), 4, 8, Ok(()), true);
    assert_limit(&dense(129, 128), 4, 8, Ok(()), false);
    assert_limit(&dense(1_024, 512), 16, 64, Ok(()), false);
    assert_limit(&roots(1_025), 4, 8, refused(2, 0), false);
    assert_limit(&roots(0), 4, 8, Ok(()), true);
    // "The roots' limit becomes P·K", by both
    assert_limit(&roots(32), 4, 8, Ok(()), true);
    assert_limit(&roots(33), 4, 8, refused(6, 33), true);
}

#[test]
fn edges() {
    assert_limit(&dense(128, 512), 4, 8, Ok(()), true);
    assert_limit(&dense(128, 513), 4, 8, Ok(()), false);
    assert_limit(&dense(40, 513), 1, 2, Ok(()), false);
    assert_limit(&dense(128, 8_128), 4, 8, Ok(()), false);
}

/// "P from 1", "K from 2" stay.
#[test]
fn workers_and_slots() {
    let diamond = [vec![], vec![0], vec![0], vec![1, 2]];
    for (p, k, engine, within) in [
        (1, 2, Ok(()), true),
        (4, 8, Ok(()), true),
        (4, 2, Ok(()), true),
        (1, 8, Ok(()), true),
        (5, 8, Ok(()), false),
        (4, 9, Ok(()), false),
        (5, 9, Ok(()), false),
        (16, 64, Ok(()), false),
        (0, 8, refused(2, 0), false),
        (4, 1, refused(2, 0), false),
        (4, 0, refused(2, 0), false),
        (17, 8, refused(2, 0), false),
        (4, 65, refused(2, 0), false),
    ] {
        assert_limit(&diamond, p, k, engine, within);
    }
    // numbers that no list has the length for
    let memory = lent(&diamond, 2, 4);
    for (p, k) in [(usize::MAX, 4), (2, usize::MAX), (1 << 32, 1 << 32)] {
        assert_eq!(answers(&begin(&memory, p, k)), [refused(2, 0); 2]);
        assert_eq!(answers(&step(&memory, p, k, 0, Step::Fetch)), [refused(2, 0); 2]);
    }
}

/// N 129, E 513, P 5 or K 9 with a list of a wrong length: the preview's 2 comes before 1.
#[test]
fn limits_come_before_lengths() {
    let sizes = [
        (dense(129, 128), 4, 8),
        (dense(128, 513), 4, 8),
        (dense(128, 512), 5, 8),
        (dense(128, 512), 4, 9),
    ];
    for (lists, p, k) in sizes {
        let right = lent(&lists, p, k);
        // the first and the third list say N and E
        for list in List::ALL
            .into_iter()
            .filter(|&list| list != List::Weights && list != List::Preds)
        {
            for length in [0, right.length(list) - 1, right.length(list) + 1] {
                let mut memory = right.clone();
                memory.lend(list, length, 0);
                assert_eq!(answers(&begin(&memory, p, k)), [refused(2, 0), refused(1, 0)]);
                for which in Step::ALL {
                    let stepped = step(&memory, p, k, 0, which);
                    assert_eq!(answers(&stepped), [refused(2, 0), refused(1, 0)]);
                }
            }
        }
    }
    // within them 1 is answered, by both
    let mut memory = lent(&dense(128, 512), 4, 8);
    memory.degrees.pop();
    assert_eq!(answers(&begin(&memory, 4, 8)), [refused(1, 0); 2]);
}

/// N 129 and a worker ≥ P at a step: 2 before 7, before the phase and before every word.
#[test]
fn limits_come_before_the_worker() {
    let [_, (answer, begun)] = begin(&lent(&dense(129, 128), 4, 8), 4, 8);
    assert_eq!(answer, Ok(()));
    for which in Step::ALL {
        for worker in [4, u32::MAX] {
            let stepped = step(&begun, 4, 8, worker, which);
            assert_eq!(answers(&stepped), [refused(2, 0), refused(7, worker)]);
        }
    }
    let mut damaged = begun.clone();
    damaged.rows[0][0] = 3;
    let stepped = step(&damaged, 4, 8, 0, Step::Fetch);
    assert_eq!(answers(&stepped), [refused(2, 0), refused(8, 0)]);
    let stepped = step(&begun, 4, 8, 0, Step::Complete);
    assert_eq!(answers(&stepped), [refused(2, 0), refused(9, 0)]);
    // within them it is 7, by both
    let [(answer, begun), _] = begin(&lent(&dense(128, 127), 4, 8), 4, 8);
    assert_eq!(answer, Ok(()));
    assert_eq!(answers(&step(&begun, 4, 8, 4, Step::Fetch)), [refused(7, 4); 2]);
}

/// Another P or K than begin's, between the two callers' limits: the preview has 2, the engine 1.
#[test]
fn another_p_or_k() {
    let [(answer, begun), _] = begin(&lent(&dense(128, 512), 4, 8), 4, 8);
    assert_eq!(answer, Ok(()));
    for (p, k, preview) in [(4, 9, 2), (5, 8, 2), (16, 64, 2), (4, 7, 1), (3, 8, 1), (2, 8, 1)] {
        assert_eq!(answers(&begin(&begun, p, k)), [refused(preview, 0), refused(1, 0)]);
        for which in Step::ALL {
            let stepped = step(&begun, p, k, 0, which);
            assert_eq!(answers(&stepped), [refused(preview, 0), refused(1, 0)]);
        }
    }
}

/// "Weights 0..65,535", by both; a heavy weight is 2 at begin, isn't read at a Fetch, and is 8 at the Complete.
#[test]
fn weights_stay() {
    let mut memory = lent(&roots(2), 4, 8);
    memory.weights = vec![65_535, 0];
    let begun = begin(&memory, 4, 8);
    assert_eq!(answers(&begun), [Ok(()); 2]);
    assert_same(&begun);
    memory.weights[0] = 65_536;
    assert_eq!(answers(&begin(&memory, 4, 8)), [refused(2, 0); 2]);
    let mut words = begun[0].1.clone();
    words.weights[0] = 65_536;
    for which in [Step::Fetch, Step::Start] {
        let stepped = step(&words, 4, 8, 0, which);
        assert!(answers(&stepped).iter().all(Result::is_ok));
        assert_same(&stepped);
        words = stepped[0].1.clone();
    }
    assert_eq!(answers(&step(&words, 4, 8, 0, Step::Complete)), [refused(8, 0); 2]);
}

/// The diamond by each preview, in the desk program's turns: every word is document 01's.
#[test]
fn the_diamond() {
    for preview in engines::previews() {
        let from = diamond::begun();
        let mut memory = Memory::sized(from.weights, from.pred_starts, from.preds, 2, 4, MARK);
        assert_eq!((preview.begin)(&mut memory, 2, 4), Ok(()));
        assert_eq!(memory, diamond::begun(), "{}", preview.name);
        let turn = [Step::Release, Step::Fetch, Step::Start, Step::Complete];
        for worker in [0, 1].into_iter().cycle().take(40) {
            turn.into_iter()
                .find(|&which| (preview.step)(&mut memory, 2, 4, worker, which).is_ok());
        }
        assert_eq!(memory, diamond::finished(), "{}", preview.name);
    }
}
