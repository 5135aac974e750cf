//! The screen: a frame of text, 80 columns wide, as a function of the board alone.

use crate::answer::Answer;
use crate::board::{Board, Open};
use crate::kind::Kind;
use crate::number::Number;
use crate::wrap::wrapped;
use std::fmt::Display;
use std::iter;
use yolluvek::{JobOf, Step, TaskId, Windows, WorkerId};

/// The frame's width.
pub const COLUMNS: usize = 80;
/// The least height that a frame fits into.
pub const MIN_ROWS: usize = 24;
/// The lines under the last rule: keys, dialog or panel. As many as the longest answer has, so that nothing moves.
const PANEL: usize = 9;
/// Where the list of rings begins in a lane's line.
const RINGS: usize = 46;
/// Where the completed tasks begin in their line.
const COMPLETED: usize = 7;
/// How many tasks of a ring or a buffer are named; of the others there is the number.
const NAMED: usize = 12;
/// The frame in at most this many rows, which are at least [`MIN_ROWS`]; lanes that don't fit are left out and said so.
pub fn frame<C: Kind>(board: &Board<C>, rows: usize) -> String {
    let mut panel = panel(board);
    panel.resize(panel.len().max(PANEL + 1), String::new());
    let mut lines = top(board);
    let record = record(board.job());
    let room = rows.saturating_sub(lines.len() + panel.len() + 2);
    lines.extend(lanes(board, room));
    lines.push(record);
    lines.extend(panel);
    let mut frame = String::new();
    for line in lines {
        frame.push_str(line.trim_end());
        frame.push('\n');
    }
    frame
}

fn top<C: Kind>(board: &Board<C>) -> Vec<String> {
    let score = board.score();
    let foreseen = format!("   foreseen {} of {}", score.right, score.asked);
    let [title, counts] = counted(board.name(), board.job());
    let window = board.window();
    vec![title, counts + &foreseen, spread(board.job(), window), head(window)]
}

/// The heads of the lanes' columns, with a load window of so many entries.
pub fn head(window: usize) -> String {
    let last = format!("last {window}");
    format!(" lane  phase    hand     load{last:>10}  ptr  filler: waiting, oldest first")
}

/// What the library says of the last load window as a whole: the spread of its loads, or why there is none.
pub fn spread<C: Kind>(job: &JobOf<C>, window: usize) -> String {
    let Some(windows) = C::windows(job, window) else {
        return "a weak job: what waits is a copy, task·predecessor; it has no load windows".to_owned();
    };
    match windows.as_ref().map(Windows::last) {
        Ok(last) => {
            let spread = last.map_or(0, |last| last.spread);
            format!("load window: last {window} of the record, spread {spread}")
        }
        Err(refusal) => refusal.to_string(),
    }
}

/// The weight that a lane finished in the last load window.
fn finished<C: Kind>(job: &JobOf<C>, lane: WorkerId, window: usize) -> Option<u32> {
    let windows = C::windows(job, window)?.ok()?;
    windows.last()?.sums.get(lane.number() as usize).copied()
}

/// The job and how far it is.
pub fn counted<C: Kind>(name: &str, job: &JobOf<C>) -> [String; 2] {
    let (n, e, p, k) = (job.tasks(), job.edges(), job.workers(), job.slots());
    let numbers = format!("   {n} tasks, {e} edges   P {p}, K {k}");
    let most = COLUMNS.saturating_sub("Lesson board   ".len() + numbers.len());
    let title = format!("Lesson board   {}{numbers}", shortened(name, most));
    let state = if job.is_finished() { "   finished" } else { "" };
    let (accepted, recorded) = (job.accepted(), job.recorded());
    let counts = format!(
        "accepted {accepted} of {}   recorded {recorded} of {}{state}",
        job.all_steps(),
        job.all_entries()
    );
    [title, counts]
}

/// The name's end, where it is too long; a mark that could move the cursor is left out.
fn shortened(name: &str, most: usize) -> String {
    let marks: Vec<char> = name
        .chars()
        .map(|mark| if mark.is_control() { '?' } else { mark })
        .collect();
    let cut = marks.len().saturating_sub(most.saturating_sub(3));
    match marks.len() > most {
        true => "...".chars().chain(marks.into_iter().skip(cut)).collect(),
        false => marks.into_iter().collect(),
    }
}

/// The lanes' lines that fit, around the marked lane, and one line that says which if not all do.
fn lanes<C: Kind>(board: &Board<C>, room: usize) -> Vec<String> {
    let marked = board.marked();
    let lines: Vec<(u32, String)> = board
        .job()
        .worker_ids()
        .flat_map(|lane| {
            let mark = if marked == Some(lane.number()) { ">" } else { " " };
            let marks = [mark].into_iter().chain(iter::repeat(" "));
            let lines = marks.zip(lane_lines(board.job(), lane, board.window()));
            lines.map(move |(mark, line)| (lane.number(), format!("{mark}{line}")))
        })
        .collect();
    let at = lines.iter().position(|&(lane, _)| Some(lane) == marked).unwrap_or(0);
    let from = at.saturating_sub(room / 2).min(lines.len().saturating_sub(room));
    let shown: Vec<&(u32, String)> = lines.iter().skip(from).take(room).collect();
    let note = match (shown.first(), shown.last()) {
        (Some((first, _)), Some((last, _))) if shown.len() < lines.len() => {
            format!(" ... lanes {first} to {last} of {} are shown", board.job().workers())
        }
        _ => String::new(),
    };
    shown.into_iter().map(|(_, line)| line.clone()).chain([note]).collect()
}

/// A lane: its row and rings, and under it its completed tasks if there are any; without the mark's column. Its row has what it
/// finished in the last load window of so many entries.
pub fn lane_lines<C: Kind>(job: &JobOf<C>, lane: WorkerId, window: usize) -> Vec<String> {
    let phase = job.phase(lane).map_or(String::new(), |phase| phase.to_string());
    let hand = job.held(lane).map_or("-".to_owned(), |item| item.to_string());
    // a long copy takes its room from the load
    let width = 14_usize.saturating_sub(hand.chars().count().max(5));
    let load = job.load(lane).unwrap_or(0);
    let last = finished(job, lane, window).map_or("-".to_owned(), |weight| weight.to_string());
    let pointer = job.pointer(lane).map_or(String::new(), |filler| filler.to_string());
    let row = format!(
        "{:>4}  {phase:<8}{hand:>5}{load:>width$}{last:>10}{pointer:>5}",
        lane.number()
    );
    let indent = " ".repeat(RINGS - 1);
    let mut lines = wrapped(&rings(job, lane), &format!("{row:<45}"), &indent, COLUMNS - 1);
    if let Some(words) = completed(job, lane) {
        let indent = " ".repeat(COMPLETED - 1);
        lines.extend(wrapped(&words, &indent, &format!("{indent}  "), COLUMNS - 1));
    }
    lines
}

/// The rings that hold something, "0: 3 4 full | 12: 13" in pieces that aren't broken.
fn rings<C: Kind>(job: &JobOf<C>, owner: WorkerId) -> Vec<String> {
    let mut pieces: Vec<String> = Vec::new();
    for filler in job.worker_ids() {
        let waiting: Vec<_> = job.waiting(owner, filler).into_iter().flatten().collect();
        if waiting.is_empty() {
            continue;
        }
        if let Some(last) = pieces.last_mut() {
            last.push_str(" |");
        }
        let mut named = names(&waiting);
        named[0] = format!("{filler}: {}", named[0]);
        if waiting.len() == job.slots() {
            named.push("full".to_owned());
        }
        pieces.extend(named);
    }
    pieces
}

fn names(tasks: &[impl Display]) -> Vec<String> {
    let more = tasks.len().saturating_sub(NAMED);
    let more = (more > 0).then(|| format!("and {more} more"));
    tasks
        .iter()
        .take(NAMED)
        .map(|item| item.to_string())
        .chain(more)
        .collect()
}

/// The completed tasks whose successors aren't all released, and the next of these.
fn completed<C: Kind>(job: &JobOf<C>, lane: WorkerId) -> Option<Vec<String>> {
    let next = job.next_release(lane)?;
    let mut words = vec!["completed".to_owned()];
    words.extend(names(job.buffer(lane)?));
    let waits = C::waits(job, next.successor, next.degree);
    words.extend([
        "|".to_owned(),
        format!("next successor: {},", next.successor),
        format!("weight {},", next.weight),
        waits,
    ]);
    Some(words)
}

/// As many of the last entries as fit.
pub fn record<C: Kind>(job: &JobOf<C>) -> String {
    let mut entries = String::new();
    for (place, entry) in C::record(job).iter().enumerate().rev() {
        let longer = format!("   {entry}{entries}");
        let dots = if place == 0 { 0 } else { "   ...".len() };
        if "record".len() + longer.chars().count() + dots > COLUMNS {
            return format!("record   ...{entries}");
        }
        entries = longer;
    }
    match entries.is_empty() {
        true => "record   empty".to_owned(),
        false => format!("record{entries}"),
    }
}

/// The lines from the last rule on.
fn panel<C: Kind>(board: &Board<C>) -> Vec<String> {
    let (title, body) = match board.open() {
        Open::Nothing => ("Keys".to_owned(), keys()),
        Open::Assign(number) => ("Assign".to_owned(), assign::<C>(*number)),
        Open::Foresee { lane, task, guess } => (format!("Assign by lane {lane}"), foresee(board, *task, *guess)),
        Open::Answer(answer) => (answer.title(), answered(board, answer)),
        Open::Back(last) => ("Step back".to_owned(), stepped_back(*last)),
    };
    let rule = format!("-- {title} ");
    [format!("{rule:-<COLUMNS$}")].into_iter().chain(body).collect()
}

fn keys() -> Vec<String> {
    lines(&[
        "arrows or digits   choose a lane, which the rule calls a worker",
        "F2 Fetch           the lane takes a task from its rings, from ptr on",
        "F3 Start           the lane runs the task in its hand",
        "F5 Complete        the task joins the record",
        "F4 Assign          a lane releases the next successor of a completed task",
        "F6, F7             a load window with an entry less, with one more",
        "F8                 step back",
        "F10 or q           quit",
    ])
}

fn lines(lines: &[&str]) -> Vec<String> {
    lines.iter().map(|line| format!(" {line}")).collect()
}

fn typed(number: Number) -> String {
    number.value().map_or(String::new(), |value| value.to_string()) + "_"
}

fn assign<C: Kind>(number: Number) -> Vec<String> {
    lines(&[
        &format!("Which lane assigns?   lane {}", typed(number)),
        "",
        C::RELEASE[0],
        C::RELEASE[1],
        "",
        "arrows or digits choose, Enter assigns, Escape leaves",
    ])
}

fn foresee<C: Kind>(board: &Board<C>, task: TaskId, guess: Number) -> Vec<String> {
    let weight = board.job().weight(task).unwrap_or(0);
    lines(&[
        &format!(
            "Where will task {task} go? Its weight is {weight}.   lane {}",
            typed(guess)
        ),
        "",
        C::RULE[0],
        C::RULE[1],
        C::RULE[2],
        "",
        "arrows or digits choose, Enter answers and assigns, Escape leaves",
    ])
}

/// The panel of an answer.
fn answered<C: Kind>(board: &Board<C>, answer: &Answer) -> Vec<String> {
    let score = board.score();
    let mut body = answer_lines(answer);
    if let Some(foreseen) = answer.foreseen {
        let how = match foreseen.guess == foreseen.owner {
            true => "as you foresaw".to_owned(),
            false => format!("and not to lane {}", foreseen.guess),
        };
        body.push(format!(
            " It went to lane {}, {how}: foreseen {} of {}",
            foreseen.owner, score.right, score.asked
        ));
    }
    body.push(" Escape closes".to_owned());
    body
}

/// What the engine said, and how many words differ.
pub fn answer_lines(answer: &Answer) -> Vec<String> {
    let mut body = match &answer.told {
        Ok(words) => words.iter().flat_map(|line| paragraph("", line)).collect(),
        Err(refusal) => {
            let mut body = paragraph("Meaning  ", &refusal.to_string());
            body.extend(paragraph("To do    ", refusal.advice()));
            body
        }
    };
    body.push(format!(" {}", answer.difference()));
    body
}

fn paragraph(label: &str, text: &str) -> Vec<String> {
    let words: Vec<String> = text.split_whitespace().map(str::to_owned).collect();
    let indent = " ".repeat(label.len() + 1);
    wrapped(&words, &format!(" {label}"), &indent, COLUMNS)
}

fn stepped_back(last: Option<(Step, WorkerId)>) -> Vec<String> {
    let told = match last {
        Some((step, lane)) => format!("The {step} by lane {lane} is taken back."),
        None => "There is no step to take back: the run has just begun.".to_owned(),
    };
    lines(&[&told, "Escape closes"])
}

#[cfg(test)]
mod tests {
    use super::*;
    use yolluvek::Refusal;

    /// The longest answers, with the longest numbers: the panel has their lines, and no more.
    #[test]
    fn the_panel_is_as_long_as_the_longest_answer() {
        let (task, owner) = (TaskId::new(1_023), WorkerId::new(15));
        let full = [
            Refusal::NoRoom { task },
            Refusal::NoRoomForFirst { task },
            Refusal::RingFull { task, owner },
        ];
        let lines = full.map(|refusal| {
            let [meaning, to_do] =
                [&*refusal.to_string(), refusal.advice()].map(|text| paragraph("Meaning  ", text).len());
            // the words that differ, and the key that closes
            meaning + to_do + 2
        });
        assert_eq!(lines.into_iter().max(), Some(PANEL), "{lines:?}");
    }
}
