//! The page: its states and answers beside the model's, and the kept page of the diamond.

use engine_model::engine;
use engine_model::memory::{Memory, Outcome, Step};
use std::path::Path;
use std::{fs, iter};
use yolluvek::{Job, Released, Tables};
use yolluvek_board::board::Board;
use yolluvek_board::page::page;
use yolluvek_board::states::{reached, Move, LANES};

fn root() -> &'static Path {
    Path::new(concat!(env!("CARGO_MANIFEST_DIR"), "/../.."))
}

fn example(name: &str) -> Vec<u8> {
    fs::read(root().join("examples").join(name)).expect(name)
}

/// The model's steps in the order in which a lane's moves stand.
const STEPS: [Step; 4] = [Step::Fetch, Step::Start, Step::Complete, Step::Release];

fn begun(tables: &Tables, p: usize, k: usize) -> Memory {
    let preds = tables.preds.iter().map(|task| task.number()).collect();
    let mut memory = Memory::sized(tables.weights.clone(), tables.pred_starts.clone(), preds, p, k, 0);
    engine::begin(&mut memory, p, k).expect("accepted");
    memory
}

/// Number and detail, or what was done, in the model's words.
fn told(taken: &Move) -> Result<Outcome, (u32, u32)> {
    use yolluvek::Outcome::{Completed, Fetched, Released as Done, Started};
    match &taken.told {
        Ok(Fetched(task)) => Ok(Outcome::Fetched { task: task.number() }),
        Ok(Started | Completed) => Ok(Outcome::Moved),
        Ok(Done(Released::DegreeLeft { degree })) => Ok(Outcome::DegreeLeft { degree: *degree }),
        Ok(Done(Released::Placed { task, owner })) => Ok(Outcome::Placed {
            task: task.number(),
            owner: owner.number(),
        }),
        Err(refusal) => Err((refusal.number(), refusal.detail())),
    }
}

/// Every move of every state is the model's, and two states are one exactly if the model's memories are.
#[test]
fn states_are_the_models() {
    for (name, p, k, finished) in [
        ("diamond.stg", 2, 4, 16),
        ("diamond.stg", 1, 2, 16),
        ("chain.stg", 3, 2, 23),
    ] {
        let tables = Tables::from_text(&example(name)).expect(name);
        let mut job = Job::from_tables(tables.clone(), p, k);
        job.begin().expect(name);
        let states = reached(&job).expect(name);
        let mut memories: Vec<Option<Memory>> = iter::repeat(None).take(states.len()).collect();
        memories[0] = Some(begun(&tables, p, k));
        for (place, state) in states.iter().enumerate() {
            let memory = memories[place].clone().expect("a state is reached before its moves");
            let asked: Vec<(u32, Step)> = (0..LANES).flat_map(|lane| STEPS.map(|step| (lane, step))).collect();
            assert_eq!(state.moves.len(), asked.len());
            for (taken, (lane, step)) in state.moves.iter().zip(asked) {
                let mut after = memory.clone();
                let said = engine::step(&mut after, p, k, lane, step);
                assert_eq!(told(taken), said.map_err(|refusal| (refusal.number, refusal.detail)));
                assert_eq!(*memories[taken.next].get_or_insert_with(|| after.clone()), after);
            }
        }
        for (place, memory) in memories.iter().enumerate() {
            assert!(
                !memories[..place].contains(memory),
                "{name}: a state stands there twice"
            );
        }
        // 3N + E
        let most = states.iter().map(|state| state.job.accepted()).max();
        assert_eq!(most, Some(finished), "{name}");
    }
}

/// docs/lesson.html is the diamond's page as it is written today; `--html docs/lesson.html` writes it.
#[test]
fn the_kept_page() {
    let job = Job::from_text(&example("diamond.stg"), 2, 4).expect("the diamond");
    let board = Board::begin("diamond.stg", job).expect("accepted");
    let kept = fs::read_to_string(root().join("docs/lesson.html")).expect("docs/lesson.html");
    assert!(
        page(&board).expect("few states") == kept,
        "docs/lesson.html is another one"
    );
    for part in ["http:", "https:", "src=", "href=", "@DATA@", "@NAME@", "@STATES@"] {
        assert!(!kept.contains(part), "{part}");
    }
}
