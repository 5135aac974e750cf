//! The lesson as one page for a browser, which loads nothing.

use crate::board::Board;
use crate::screen;
use crate::states::{reached, Move, State, TooMany};
use std::collections::HashMap;
use yolluvek::{Job, Outcome, Released};

const TEMPLATE: &str = include_str!("page.html");

/// Texts, each kept once.
#[derive(Default)]
struct Texts {
    places: HashMap<String, usize>,
    texts: Vec<String>,
}

impl Texts {
    fn place(&mut self, text: String) -> usize {
        let next = self.texts.len();
        *self.places.entry(text).or_insert_with_key(|text| {
            self.texts.push(text.clone());
            next
        })
    }
}

/// The page of a board that has just begun.
///
/// # Errors
///
/// Where too many states can be reached.
pub fn page(board: &Board) -> Result<String, TooMany> {
    let states = reached(board.job())?;
    let (mut texts, mut answers) = (Texts::default(), Texts::default());
    let shown = list(states.iter().map(|state| shown(&mut texts, board.name(), &state.job)));
    let moves = list(states.iter().map(|state| taken(&mut texts, &mut answers, state)));
    let [title, _] = screen::counted(board.name(), board.job());
    let data = format!(
        "{{\"title\":{},\"heads\":{},\"lanes\":{},\n\"texts\":{},\n\"answers\":{},\n\"states\":{shown},\n\"moves\":{moves}}}",
        quoted(&title),
        list(sizes(board.job()).map(|window| quoted(&screen::head(window)))),
        board.job().workers(),
        list(texts.texts.iter().map(|text| quoted(text))),
        list(answers.texts),
    );
    Ok(TEMPLATE
        .replace("@STATES@", &states.len().to_string())
        .replace("@DATA@", &data)
        .replace("@NAME@", &escaped(board.name())))
}

/// The sizes of a load window, which has up to one entry for each task.
fn sizes(job: &Job) -> impl Iterator<Item = usize> {
    1..=job.tasks().max(1)
}

/// A state as the places of its texts: the counts, for each size of a load window its spread and each lane's lines, the record.
fn shown(texts: &mut Texts, name: &str, job: &Job) -> String {
    let [_, counts] = screen::counted(name, job);
    let counts = texts.place(counts);
    let windows = list(sizes(job).map(|window| {
        let spread = texts.place(screen::spread(job, window));
        let lanes = list(job.worker_ids().map(|lane| {
            let lines = screen::lane_lines(job, lane, window);
            let places = lines.iter().map(|line| texts.place(line.trim_end().to_owned()));
            list(places.map(|place| place.to_string()))
        }));
        format!("[{spread},{lanes}]")
    }));
    let record = texts.place(screen::record(job));
    format!("[{counts},{windows},{record}]")
}

/// A state's moves: the place of each answer, and of the state after it.
fn taken(texts: &mut Texts, answers: &mut Texts, state: &State) -> String {
    list(state.moves.iter().map(|taken| {
        let answer = answers.place(answered(texts, &state.job, taken));
        format!("{answer},{}", taken.next)
    }))
}

/// An answer: whether it is accepted, its title and lines, and the task, weight and owner of a placement.
fn answered(texts: &mut Texts, job: &Job, taken: &Move) -> String {
    let accepted = u8::from(taken.told.is_ok());
    let title = texts.place(taken.answer.title());
    let lines = screen::answer_lines(&taken.answer);
    let lines = list(lines.into_iter().map(|line| texts.place(line).to_string()));
    let placed = match taken.told {
        Ok(Outcome::Released(Released::Placed { task, owner })) => {
            format!("[{task},{},{owner}]", job.weight(task).unwrap_or(0))
        }
        _ => "0".to_owned(),
    };
    format!("[{accepted},{title},{lines},{placed}]")
}

fn list(items: impl IntoIterator<Item = String>) -> String {
    let items: Vec<String> = items.into_iter().collect();
    format!("[{}]", items.join(","))
}

/// A text as JavaScript's; no mark in it ends the script that it stands in.
fn quoted(text: &str) -> String {
    let mut quoted = String::from("\"");
    for mark in text.chars() {
        match mark {
            '"' | '\\' => quoted.extend(['\\', mark]),
            '<' | '>' | '&' | '@' | '\u{2028}' | '\u{2029}' | '\0'..='\u{1f}' => {
                quoted.push_str(&format!("\\u{:04x}", u32::from(mark)));
            }
            _ => quoted.push(mark),
        }
    }
    quoted + "\""
}

/// A text as HTML's.
fn escaped(text: &str) -> String {
    text.replace('&', "&amp;").replace('<', "&lt;").replace('>', "&gt;")
}

#[cfg(test)]
mod tests {
    use super::*;

    #[test]
    fn texts_of_any_marks() {
        assert_eq!(quoted("a\"\\</script>\n"), r#""a\"\\\u003c/script\u003e\u000a""#);
        // a name that looks like a place in the template
        assert_eq!(quoted("@NAME@"), r#""\u0040NAME\u0040""#);
        assert_eq!(escaped("<b>&"), "&lt;b&gt;&amp;");
    }
}
