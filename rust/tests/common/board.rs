//! A board to try the calls of either family on: lent lists with P and K, and every engine side by side.

use engine_model::engine::Engine;
use engine_model::memory::{List, Lists, Step, COUNT, END_WORDS, HEAD, TAIL};
use engine_model::model::{Answer, Refusal, Table};

/// A word that stands in the lists before begin.
pub const MARK: u32 = 777_777;

pub const HUGE: u32 = u32::MAX;

pub fn refused<T>(number: u32, detail: u32) -> Result<T, Refusal> {
    Err(Refusal { number, detail })
}

/// A memory whose family has these engines.
pub trait Tried: Lists {
    fn engines() -> Vec<Engine<Self>>;
}

#[derive(Clone)]
pub struct Board<M: Lists> {
    pub memory: M,
    pub p: usize,
    pub k: usize,
    engines: Vec<Engine<M>>,
}

impl<M: Tried> Board<M> {
    /// Lists for these weights and predecessors, sized for P and K, every other word the mark.
    pub fn new(weights: &[u32], lists: &[&[u32]], p: usize, k: usize) -> Board<M> {
        let lists: Vec<Vec<u32>> = lists.iter().map(|list| list.to_vec()).collect();
        let table = Table::of(&lists);
        Board::of(M::sized(weights.to_vec(), table.starts, table.words, p, k, MARK), p, k)
    }

    /// The same after an accepted begin.
    pub fn begun(weights: &[u32], lists: &[&[u32]], p: usize, k: usize) -> Board<M> {
        let mut board = Board::new(weights, lists, p, k);
        assert_eq!(board.begin(), Ok(()));
        board
    }

    /// These lists on every engine.
    pub fn of(memory: M, p: usize, k: usize) -> Board<M> {
        let engines = M::engines();
        Board { memory, p, k, engines }
    }

    /// The same with one engine alone.
    pub fn by(self, engine: Engine<M>) -> Board<M> {
        let engines = vec![engine];
        Board { engines, ..self }
    }

    /// Makes the call by every engine: all agree in the answer and in every word, and a refused call keeps every word.
    fn call<T: Copy + PartialEq + std::fmt::Debug>(
        &mut self,
        make: impl Fn(&Engine<M>, &mut M) -> Result<T, Refusal>,
    ) -> Result<T, Refusal> {
        let mut outcomes = self.engines.iter().map(|engine| {
            let mut memory = self.memory.clone();
            let answer = make(engine, &mut memory);
            (engine.name, answer, memory)
        });
        let (_, answer, memory) = outcomes.next().expect("a board has an engine");
        for (name, other, words) in outcomes {
            assert_eq!(other, answer, "{name}");
            assert_eq!(words, memory, "{name}");
        }
        if answer.is_err() {
            assert_eq!(memory, self.memory, "a refused call writes");
        }
        self.memory = memory;
        answer
    }

    pub fn begin(&mut self) -> Answer {
        self.begin_with(self.p, self.k)
    }

    pub fn begin_with(&mut self, p: usize, k: usize) -> Answer {
        self.call(|engine, memory| (engine.begin)(memory, p, k))
    }

    pub fn step(&mut self, worker: u32, step: Step) -> Result<M::Outcome, Refusal> {
        self.step_with(self.p, self.k, worker, step)
    }

    pub fn step_with(&mut self, p: usize, k: usize, worker: u32, step: Step) -> Result<M::Outcome, Refusal> {
        self.call(|engine, memory| (engine.step)(memory, p, k, worker, step))
    }

    pub fn fetch(&mut self, worker: u32) -> Result<M::Outcome, Refusal> {
        self.step(worker, Step::Fetch)
    }

    pub fn start(&mut self, worker: u32) -> Result<M::Outcome, Refusal> {
        self.step(worker, Step::Start)
    }

    pub fn complete(&mut self, worker: u32) -> Result<M::Outcome, Refusal> {
        self.step(worker, Step::Complete)
    }

    pub fn release(&mut self, worker: u32) -> Result<M::Outcome, Refusal> {
        self.step(worker, Step::Release)
    }

    /// The same board with one word written.
    pub fn with(&self, list: List, place: usize, word: u32) -> Board<M> {
        let mut board = self.clone();
        let old = board.memory.replace(list, place, word);
        assert!(old.is_some(), "{list:?} has no place {place}");
        board
    }

    /// The same board with one word of a worker's row written.
    pub fn with_row(&self, worker: usize, field: usize, word: u32) -> Board<M> {
        let row_words = self.memory.words(List::Rows) / self.memory.length(List::Rows);
        self.with(List::Rows, worker * row_words + field, word)
    }

    /// The same board with head, tail and count of a ring written.
    pub fn with_ends(&self, ring: usize, [head, tail, count]: [u32; END_WORDS]) -> Board<M> {
        let words = [(HEAD, head), (TAIL, tail), (COUNT, count)];
        words.into_iter().fold(self.clone(), |board, (place, word)| {
            board.with(List::Ends, END_WORDS * ring + place, word)
        })
    }
}
