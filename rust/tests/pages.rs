//! How tables are put into the pages of `docs`; and the front page: what it quotes and counts is as the files have it.

use engine_model::desk;
use engine_model::pages::{Block, Page};
use std::ffi::OsStr;
use std::fs;
use std::path::{Path, PathBuf};

fn page(text: &str) -> Page {
    let text = String::from(text);
    Page {
        file: "",
        blocks: vec![Block { name: "one", text }],
    }
}

/// What stands between the marks is replaced, and nothing else.
#[test]
fn a_table_is_put_between_its_marks() {
    let stored = "a\n<!-- table one -->\nold\n<!-- end of one -->\nb\n";
    let made = "a\n<!-- table one -->\n| new |\n<!-- end of one -->\nb\n";
    assert_eq!(page("| new |\n").filled(stored).as_deref(), Ok(made));
    assert_eq!(page("| new |\n").filled(made).as_deref(), Ok(made));
}

/// A table without its marks, with a mark twice, or one that nobody makes.
#[test]
fn wrong_marks_are_found() {
    let whole = "<!-- table one -->\n<!-- end of one -->\n";
    for stored in [
        "",
        "<!-- table one -->\n",
        "<!-- end of one -->\n<!-- table one -->\n",
        "<!-- table two -->\n<!-- end of two -->\n",
        &whole.repeat(2),
        &format!("{whole}<!-- table two -->\n<!-- end of two -->\n"),
    ] {
        assert!(page("").filled(stored).is_err(), "{stored:?}");
    }
}

/// From the repository's root.
fn file(name: &str) -> PathBuf {
    Path::new(env!("CARGO_MANIFEST_DIR")).join("..").join(name)
}

fn text(name: &str) -> String {
    fs::read_to_string(file(name)).unwrap_or_else(|error| panic!("{name}: {error}"))
}

const FRONT: &str = "README.md";
const PAGES: [&str; 3] = [FRONT, "docs/RULE.md", "docs/REFUSALS.md"];

/// The lines of the front page's block that begins with this line.
fn quoted(first: &str) -> Vec<String> {
    let page = text(FRONT);
    let block = page.lines().skip_while(|&line| line != first);
    let lines: Vec<String> = block.take_while(|&line| line != "```").map(String::from).collect();
    assert!(!lines.is_empty(), "{FRONT} quotes no {first:?}");
    lines
}

/// A table's row can't be broken; those of the front page are short enough.
#[test]
fn lines_have_at_most_100_columns() {
    for page in PAGES {
        for line in text(page)
            .lines()
            .filter(|line| page == FRONT || !line.starts_with('|'))
        {
            assert!(line.chars().count() <= 100, "{page}: {line}");
        }
    }
}

#[test]
fn what_is_linked_is_there() {
    for page in PAGES {
        let text = text(page);
        let links: Vec<&str> = text
            .split("](")
            .skip(1)
            .filter_map(|rest| rest.split_once(')'))
            .map(|(link, _)| link)
            .collect();
        let folder = file(page).parent().map(Path::to_path_buf).unwrap_or_default();
        for link in links {
            let there = match link.strip_prefix('#') {
                Some(part) => headings(&text).any(|heading| heading == part),
                None => folder.join(link).exists(),
            };
            assert!(there, "{page}: {link}");
        }
    }
}

/// The names under which a page's headings are linked.
fn headings(page: &str) -> impl Iterator<Item = String> + '_ {
    let lines = page.lines().filter(|line| line.starts_with('#'));
    lines.map(|line| {
        let name = line.trim_start_matches('#').trim().to_lowercase().replace(' ', "-");
        name.chars()
            .filter(|&mark| mark.is_alphanumeric() || mark == '-')
            .collect()
    })
}

/// The record with all its fields, without the comments.
#[test]
fn the_theorem_stands_as_in_its_file() {
    let specs = text("crates/runs/specs/Demand.antt");
    let first = "pub record OneRun (v : View Mem Call) : Type 0 where";
    let record = specs.lines().skip_while(|&line| line != first);
    let lines = record.take_while(|line| !line.is_empty());
    let fields: Vec<&str> = lines.filter(|line| !line.trim_start().starts_with("--")).collect();
    assert_eq!(quoted(first), fields);
}

/// Each line is one of the stored transcript, in the same order; the story's first and last line are there.
#[test]
fn the_board_s_lines_are_the_transcript_s() {
    let transcript = text("rust/board/transcripts/refusal-11.transcript");
    let story = quoted("# Press F4, choose lane twelve, press Assign, read the refusal, press Escape:");
    let mut lines = transcript.lines();
    for line in &story {
        assert!(lines.any(|each| each == line), "{line}");
    }
    assert_eq!(
        story.last().map(String::as_str),
        Some("# the board looks as it did before F4.")
    );
}

/// The files with this ending in the folders of crates with this name, and below them.
fn files(folder: &str, ending: &str) -> Vec<PathBuf> {
    let crates = entries(&file("crates")).into_iter();
    let mut open: Vec<PathBuf> = crates
        .map(|each| each.join(folder))
        .filter(|each| each.exists())
        .collect();
    let mut found = Vec::new();
    while let Some(path) = open.pop() {
        if path.is_dir() {
            open.extend(entries(&path));
        } else if path.extension() == Some(OsStr::new(ending)) {
            found.push(path);
        }
    }
    found
}

fn entries(folder: &Path) -> Vec<PathBuf> {
    let entries = fs::read_dir(folder).unwrap_or_else(|error| panic!("{}: {error}", folder.display()));
    entries.map(|entry| entry.expect("an entry").path()).collect()
}

fn lines(files: &[PathBuf]) -> usize {
    let count = |path: &PathBuf| fs::read_to_string(path).expect("a source").lines().count();
    files.iter().map(count).sum()
}

/// "About" is within a twentieth.
#[test]
fn what_is_counted() {
    let counts = [
        ("11,000 lines of code", 11_000, lines(&files("src", "rt"))),
        ("11,000 lines of definitions", 11_000, lines(&files("specs", "antt"))),
        ("53,000 lines of proof", 53_000, lines(&files("proofs", "antt"))),
        ("about 430 wrong programs", 430, files("must-fail", "edit").len()),
        ("the proofs of 107 crates", 107, entries(&file("crates")).len()),
    ];
    let page = text(FRONT);
    for (told, about, counted) in counts {
        assert!(page.contains(told), "{told}");
        assert!(counted.abs_diff(about) <= about / 20, "{told}: {counted}");
    }
}

#[test]
fn what_the_diamond_prints() {
    let printed = desk::output(text("examples/diamond.stg").as_bytes());
    let printed = String::from_utf8(printed).expect("a text");
    assert_eq!(printed.lines().collect::<Vec<_>>(), quoted("4 16"));
}
