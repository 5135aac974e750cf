//! The board: a job and what the keys do with it.

use crate::answer::{Answer, Foreseen};
use crate::keys::Key;
use crate::kind::Kind;
use crate::number::{lane_after, lane_before, Number};
use yolluvek::{Call, Engine, JobOf, Outcome, Refusal, Step, TaskId, WorkerId};

/// What stands open over the board's keys.
#[derive(Clone, Debug, PartialEq, Eq)]
pub enum Open {
    /// Nothing: the keys are the board's.
    Nothing,
    /// The assign dialog, with the lane chosen in it.
    Assign(Number),
    /// The question before an Assign that will place a task.
    Foresee {
        /// The lane that releases.
        lane: WorkerId,
        /// The task that will be placed.
        task: TaskId,
        /// The answer so far.
        guess: Number,
    },
    /// The answer of a call.
    Answer(Box<Answer>),
    /// A step taken back, or None if there was none to take back.
    Back(Option<(Step, WorkerId)>),
}

/// How many placements were foreseen, of how many asked for.
#[derive(Clone, Copy, Debug, Default, PartialEq, Eq)]
pub struct Score {
    /// Foreseen.
    pub right: u32,
    /// Asked for.
    pub asked: u32,
}

/// Whether the lesson goes on after a key.
#[derive(Clone, Copy, Debug, PartialEq, Eq)]
#[must_use]
pub enum Flow {
    /// It goes on.
    GoOn,
    /// It ends.
    Quit,
}

/// A lesson: a job that is begun and keeps its log, the chosen lane, and what stands open.
#[derive(Clone, Debug)]
pub struct Board<C: Kind = Engine> {
    name: String,
    job: JobOf<C>,
    lane: u32,
    typing: bool,
    open: Open,
    score: Score,
    window: usize,
}

/// The entries of the load window that a lesson begins with.
const WINDOW: usize = 2;

/// Views.
impl<C: Kind> Board<C> {
    /// The job's name.
    pub fn name(&self) -> &str {
        &self.name
    }

    /// The job.
    pub fn job(&self) -> &JobOf<C> {
        &self.job
    }

    /// What stands open.
    pub fn open(&self) -> &Open {
        &self.open
    }

    /// The score.
    pub fn score(&self) -> Score {
        self.score
    }

    /// How many entries the load window has.
    pub fn window(&self) -> usize {
        self.window
    }

    /// The lane that is marked: the board's own, or the one that is chosen in a dialog or that an answer is about.
    pub fn marked(&self) -> Option<u32> {
        match &self.open {
            Open::Nothing | Open::Back(_) => Some(self.lane),
            Open::Assign(number) => number.value(),
            Open::Foresee { lane, guess, .. } => guess.value().or(Some(lane.number())),
            Open::Answer(answer) => Some(answer.lane.number()),
        }
    }

    fn lanes(&self) -> u32 {
        u32::try_from(self.job.workers()).unwrap_or(u32::MAX)
    }

    /// Up to one entry for each task.
    fn longest_window(&self) -> usize {
        self.job.tasks().max(1)
    }
}

impl<C: Kind> Board<C> {
    /// Begins the job.
    ///
    /// # Errors
    ///
    /// Refused as by [`Job::begin`](yolluvek::Job::begin).
    pub fn begin(name: &str, mut job: JobOf<C>) -> Result<Board<C>, Refusal> {
        job.keep_log();
        job.begin()?;
        let window = WINDOW.min(job.tasks().max(1));
        Ok(Board {
            name: name.to_owned(),
            job,
            lane: 0,
            typing: false,
            open: Open::Nothing,
            score: Score::default(),
            window,
        })
    }

    /// Takes a key.
    pub fn press(&mut self, key: Key) -> Flow {
        if key.quits() {
            return Flow::Quit;
        }
        match self.open {
            Open::Nothing => self.board_key(key),
            Open::Assign(number) => self.assign_key(number, key),
            Open::Foresee { lane, task, guess } => self.foresee_key(lane, task, guess, key),
            Open::Answer(_) | Open::Back(_) => self.panel_key(key),
        }
        self.typing = matches!(key, Key::Digit(_)) && self.open == Open::Nothing;
        Flow::GoOn
    }

    fn board_key(&mut self, key: Key) {
        let lane = WorkerId::new(self.lane);
        match key {
            Key::Back => self.lane = lane_before(self.lane, self.lanes()),
            Key::Forth => self.lane = lane_after(self.lane, self.lanes()),
            Key::Digit(digit) => self.choose(digit),
            Key::Function(2) => self.call(Step::Fetch, lane, None),
            Key::Function(3) => self.call(Step::Start, lane, None),
            Key::Function(5) => self.call(Step::Complete, lane, None),
            Key::Function(4) => self.open = Open::Assign(Number::proposed(self.lane)),
            Key::Function(6) => self.window = (self.window - 1).max(1),
            Key::Function(7) => self.window = (self.window + 1).min(self.longest_window()),
            Key::Function(8) => self.step_back(),
            _ => {}
        }
    }

    /// A digit right after another continues its number, where there is such a lane.
    fn choose(&mut self, digit: u32) {
        let longer = self.lane.saturating_mul(10).saturating_add(digit);
        if self.typing && longer < self.lanes() {
            self.lane = longer;
        } else if digit < self.lanes() {
            self.lane = digit;
        }
    }

    fn assign_key(&mut self, number: Number, key: Key) {
        match (key, number.value()) {
            (Key::Escape, _) => self.open = Open::Nothing,
            (Key::Enter, Some(lane)) => self.assign(WorkerId::new(lane)),
            _ => self.open = Open::Assign(self.edited(number, key)),
        }
    }

    fn foresee_key(&mut self, lane: WorkerId, task: TaskId, guess: Number, key: Key) {
        match (key, guess.value()) {
            (Key::Escape, _) => self.open = Open::Nothing,
            (Key::Enter, Some(owner)) => self.call(Step::Release, lane, Some(WorkerId::new(owner))),
            _ => {
                let guess = self.edited(guess, key);
                self.open = Open::Foresee { lane, task, guess };
            }
        }
    }

    fn edited(&self, number: Number, key: Key) -> Number {
        match key {
            Key::Digit(digit) => number.digit(digit),
            Key::Backspace => number.shorter(),
            Key::Back => number.back(self.lanes()),
            Key::Forth => number.forth(self.lanes()),
            _ => number,
        }
    }

    /// Escape closes a panel; a key that means something to the board does that at once. Enter doesn't, so that an
    /// answer isn't closed by pressing Assign twice.
    fn panel_key(&mut self, key: Key) {
        match key {
            Key::Escape => self.open = Open::Nothing,
            Key::Back | Key::Forth | Key::Digit(_) | Key::Function(_) => {
                self.open = Open::Nothing;
                self.board_key(key);
            }
            _ => {}
        }
    }

    /// Asks first if the engine, tried on a copy, places a task.
    fn assign(&mut self, lane: WorkerId) {
        let tried = self.job.clone().release(lane).ok();
        match tried.and_then(C::placed) {
            Some((task, _)) => {
                let guess = Number::EMPTY;
                self.open = Open::Foresee { lane, task, guess };
            }
            None => self.call(Step::Release, lane, None),
        }
    }

    fn call(&mut self, step: Step, lane: WorkerId, guess: Option<WorkerId>) {
        let before = self.job.clone();
        let told = self.job.step(step, lane);
        let mut answer = Answer::of(&before, &self.job, step, lane, &told);
        let placed = match told {
            Ok(Outcome::Released(released)) => C::placed(released),
            _ => None,
        };
        if let Some((guess, (_, owner))) = guess.zip(placed) {
            self.score.asked += 1;
            self.score.right += u32::from(guess == owner);
            answer.foreseen = Some(Foreseen { guess, owner });
        }
        self.open = Open::Answer(Box::new(answer));
    }

    /// Begins again and makes all accepted calls but the last.
    fn step_back(&mut self) {
        let mut last = None;
        if let [calls @ .., Call::Step(step, lane)] = self.job.log() {
            last = Some((*step, *lane));
            let (tables, workers, slots) = (self.job.tables().clone(), self.job.workers(), self.job.slots());
            self.job = JobOf::replay(tables, workers, slots, calls);
        }
        self.open = Open::Back(last);
    }
}
