//! Writes the cases and what the model answers to the files of the programs `trials`, `text_trials`, `run_trials` and
//! `desk_trials`: `cargo run --bin make-trials`.

use engine_model::frames::{answers, cases, Frame};
use engine_model::script::{self, Line};
use engine_model::text::{lines, Trial};
use engine_model::{scripts, texts, trials};
use std::fs;
use std::io;
use std::path::Path;

fn write(program: &str, cases: &[u8], answers: impl AsRef<[u8]>) -> io::Result<()> {
    let folder = Path::new(env!("CARGO_MANIFEST_DIR")).join("../crates").join(program);
    fs::create_dir_all(&folder)?;
    fs::write(folder.join("stdin"), cases)?;
    fs::write(folder.join("stdout"), answers)
}

fn main() -> io::Result<()> {
    let graphs = trials::all();
    write(
        "trials",
        lines(&graphs, Trial::case).as_bytes(),
        lines(&graphs, Trial::answer),
    )?;
    let texts = texts::all();
    write("text_trials", &cases(&texts), answers(&texts))?;
    let runs = scripts::all();
    write(
        "run_trials",
        script::text(&runs, Line::case).as_bytes(),
        script::text(&runs, Line::answer),
    )?;
    let desk = texts::desk::all();
    let joined = |part: fn(&Frame) -> Vec<u8>| desk.iter().flat_map(part).collect::<Vec<u8>>();
    write("desk_trials", &joined(Frame::desk_case), joined(Frame::desk_answer))
}
