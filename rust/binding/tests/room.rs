//! Room comes as a refusal with 11 advises, in drawn runs of plain jobs, previews and weak jobs.

use engine_model::draw::Draw;
use engine_model::model::Graph;
use engine_model::pages::{self, Page};
use engine_model::runs::graphs;
use yolluvek::{Caller, Engine, JobOf, Outcome, Planner, Refusal, Step, Tables, TaskId, WeakEngine, WorkerId};

/// Of each worker, how often each one has fetched since its Release was refused with 11; none if it wasn't.
type Fetches = Vec<Option<Vec<usize>>>;

/// How often 11 was met, of a task or a first copy and of a later one.
#[derive(Debug, Default)]
struct Met {
    firsts: usize,
    laters: usize,
}

impl Met {
    /// No worker whose Fetches count has made P of them since the first refusal.
    fn refused(&mut self, refusal: &Refusal, fetches: &[usize]) {
        let workers = fetches.len();
        match refusal {
            Refusal::RingFull { owner, .. } => {
                self.laters += 1;
                assert!(fetches[owner.number() as usize] < workers, "{fetches:?}");
            }
            _ => {
                self.firsts += 1;
                assert!(fetches.iter().all(|&made| made < workers), "{fetches:?}");
            }
        }
    }
}

/// Drawn steps of one job.
fn drawn_run<C: Caller>(seed: u64, met: &mut Met) {
    let draw = &mut Draw::new(seed);
    let Graph { weights, preds } = graphs::any(draw, 40);
    let tables = Tables {
        weights,
        pred_starts: preds.starts,
        preds: preds.words.into_iter().map(TaskId::new).collect(),
    };
    let workers = draw.between(1, 4);
    let mut job: JobOf<C> = JobOf::from_tables(tables, workers, draw.between(2, 3));
    if job.begin().is_err() {
        return;
    }
    let mut since: Fetches = vec![None; workers];
    for _ in 0..800 {
        let (worker, step) = (draw.below(workers), draw.pick(&Step::ALL));
        match job.step(step, WorkerId::new(worker as u32)) {
            Ok(Outcome::Fetched(_)) => since.iter_mut().flatten().for_each(|fetches| fetches[worker] += 1),
            Ok(Outcome::Released(_)) => since[worker] = None,
            Err(refusal) if refusal.number() == 11 => {
                met.refused(&refusal, since[worker].get_or_insert(vec![0; workers]));
            }
            _ => {}
        }
    }
}

fn met<C: Caller>() -> Met {
    let mut met = Met::default();
    (0..500).for_each(|seed| drawn_run::<C>(seed, &mut met));
    met
}

/// The page says so, wherever its lines break.
fn assert_told(page: &Page, sentence: &str) {
    let page = page.stored().unwrap_or_else(|wrong| panic!("{wrong}"));
    let words: Vec<&str> = page.split_whitespace().collect();
    assert!(words.join(" ").contains(sentence), "{sentence}");
}

/// "After at most P accepted Fetches of any one worker there is room."
#[test]
fn of_tasks() {
    let told =
        "Room comes when an owner fetches from one of these rings, which any one worker has done after at most P \
                accepted Fetches.";
    assert_told(&pages::rule(), told);
    for met in [met::<Engine>(), met::<Planner>()] {
        assert!(met.firsts > 100 && met.laters == 0, "{met:?}");
    }
}

/// "[…] but once another worker's Release has fixed the task, only of the worker that it is fixed to."
#[test]
fn of_copies() {
    let told = "Room comes after at most P accepted Fetches of the fixed worker; those of others don't help.";
    assert_told(&pages::rule(), told);
    let told = "then the refused copy is a later one, and room in other rings doesn't help any more.";
    assert_told(&pages::rule(), told);
    let met = met::<WeakEngine>();
    assert!(met.firsts > 100 && met.laters > 100, "{met:?}");
}
