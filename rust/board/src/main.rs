//! `yolluvek-board FILE P K`: the lesson board for the job in a text of the Standard Task Graph Set; with `--weak`, which may
//! stand anywhere, the job is begun weak.

#![forbid(unsafe_code)]

use std::fs::{self, File};
use std::io::{self, Read, Write};
use std::path::Path;
use std::process::ExitCode;
use yolluvek::limits::{Limit, MAX_TEXT};
use yolluvek::{Engine, JobOf, Refusal, WeakEngine};
use yolluvek_board::board::Board;
use yolluvek_board::kind::Kind;
use yolluvek_board::{page, script, terminal};

const USAGE: &str = "usage: yolluvek-board FILE P K [--keys FILE | --html FILE], or FILE P K [--keys FILE] with --weak";

const WEAK: &str = "--weak";

/// What the lesson is for.
enum Way {
    Terminal,
    Keys(String),
    Html(String),
}

fn main() -> ExitCode {
    let arguments: Option<Vec<String>> = std::env::args_os()
        .skip(1)
        .map(|word| word.into_string().ok())
        .collect();
    match arguments.ok_or(USAGE.to_owned()).and_then(|words| run(&words)) {
        Ok(()) => ExitCode::SUCCESS,
        Err(line) => {
            // there is nobody to tell where this fails
            let _ = writeln!(io::stderr(), "{line}");
            ExitCode::FAILURE
        }
    }
}

fn run(arguments: &[String]) -> Result<(), String> {
    let (weak, words): (Vec<&str>, Vec<&str>) = arguments.iter().map(String::as_str).partition(|&word| word == WEAK);
    match weak.len() {
        1 => match lesson::<WeakEngine>(&words)? {
            (_, Way::Html(_)) => Err(USAGE.to_owned()),
            (board, way) => play(board, &way),
        },
        2.. => Err(USAGE.to_owned()),
        0 => match lesson::<Engine>(&words)? {
            (board, Way::Html(file)) => {
                let page = page::page(&board).map_err(|many| format!("{}: {many}", board.name()))?;
                fs::write(&file, page).map_err(|reason| format!("{file}: {reason}"))
            }
            (board, way) => play(board, &way),
        },
    }
}

/// The lesson that is asked for.
fn lesson<C: Kind>(words: &[&str]) -> Result<(Board<C>, Way), String> {
    let (file, workers, slots, way) = match *words {
        [file, workers, slots] => (file, workers, slots, Way::Terminal),
        [file, workers, slots, "--keys", keys] => (file, workers, slots, Way::Keys(keys.to_owned())),
        [file, workers, slots, "--html", page] => (file, workers, slots, Way::Html(page.to_owned())),
        _ => return Err(USAGE.to_owned()),
    };
    let text = text_of(file)?;
    let job = JobOf::from_text(&text, number("P", workers)?, number("K", slots)?);
    let job = job.map_err(|refusal| told(file, &refusal))?;
    let name = Path::new(file).file_name().unwrap_or_default().to_string_lossy();
    let board = Board::begin(&name, job).map_err(|refusal| told(file, &refusal))?;
    Ok((board, way))
}

fn play<C: Kind>(mut board: Board<C>, way: &Way) -> Result<(), String> {
    match way {
        Way::Terminal => terminal::play(&mut board).map_err(|trouble| trouble.to_string()),
        Way::Keys(file) => {
            let keys = fs::read_to_string(file).map_err(|reason| format!("{file}: {reason}"))?;
            let told = script::transcript(&mut board, &keys).map_err(|bad| format!("{file}, {bad}"))?;
            let written = io::stdout().lock().write_all(told.as_bytes());
            written.map_err(|reason| format!("the transcript can't be written: {reason}"))
        }
        Way::Html(_) => Err(USAGE.to_owned()),
    }
}

fn number(name: &str, word: &str) -> Result<usize, String> {
    word.parse()
        .map_err(|_| format!("{name} has to be a number, and is \"{word}\""))
}

/// The text, read no further than one byte beyond its limit, where the library refuses it.
fn text_of(file: &str) -> Result<Vec<u8>, String> {
    let mut text = Vec::new();
    let read = File::open(file).and_then(|opened| opened.take(MAX_TEXT as u64 + 1).read_to_end(&mut text));
    read.map(|_| text).map_err(|reason| format!("{file}: {reason}"))
}

fn told(file: &str, refusal: &Refusal) -> String {
    let (number, detail, advice) = (refusal.number(), refusal.detail(), refusal.advice());
    let meaning = match refusal {
        Refusal::BeyondLimit {
            limit: Limit::Text { .. },
        } => too_long(file),
        _ => refusal.to_string(),
    };
    format!("{file}: refused {number}, detail {detail}: {meaning}. To do: {advice}")
}

/// A text that is too long was handed over cut; how long it is the file may know, if it is one. Whether it is a text isn't
/// known.
fn too_long(file: &str) -> String {
    let length = fs::metadata(file).ok().filter(fs::Metadata::is_file);
    let known = length.map(|known| known.len()).filter(|&bytes| bytes > MAX_TEXT as u64);
    match known {
        Some(bytes) => format!("it has {bytes} bytes, more than the {MAX_TEXT} that a text may have"),
        None => format!("it has more than the {MAX_TEXT} bytes that a text may have"),
    }
}
