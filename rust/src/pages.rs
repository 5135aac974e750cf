//! The pages of `docs` with tables that are made here, so that what they show is what the model does. `make-pages` writes
//! them again; a test says when that is due.

use crate::{refusals, rule, weak_rule};
use std::fs;
use std::path::{Path, PathBuf};

/// What writes the tables again, from the repository's root.
const COMMAND: &str = "cargo run --manifest-path rust/Cargo.toml --bin make-pages";

/// What stands between the two marks with this name.
pub struct Block {
    pub name: &'static str,
    pub text: String,
}

pub struct Page {
    pub file: &'static str,
    pub blocks: Vec<Block>,
}

/// docs/RULE.md.
pub fn rule() -> Page {
    Page {
        file: "RULE.md",
        blocks: [rule::blocks(), weak_rule::blocks()].into_iter().flatten().collect(),
    }
}

/// docs/REFUSALS.md.
pub fn refusals() -> Page {
    Page {
        file: "REFUSALS.md",
        blocks: refusals::blocks(),
    }
}

const OPENING: &str = "<!-- table ";

impl Block {
    fn opening(&self) -> String {
        format!("{OPENING}{} -->\n", self.name)
    }

    fn closing(&self) -> String {
        format!("<!-- end of {} -->\n", self.name)
    }

    /// The page with this block as it should be.
    fn put_into(&self, page: &str) -> Result<String, String> {
        let (opening, closing) = (self.opening(), self.closing());
        let (before, rest) = parted(page, &opening)?;
        let (_, after) = parted(rest, &closing)?;
        Ok([before, &opening, &self.text, &closing, after].concat())
    }
}

/// What stands before and after the mark, which has to be there once.
fn parted<'a>(text: &'a str, mark: &str) -> Result<(&'a str, &'a str), String> {
    let parts = text.split_once(mark).filter(|(_, after)| !after.contains(mark));
    parts.ok_or_else(|| format!("{} is not there once", mark.trim_end()))
}

impl Page {
    fn path(&self) -> PathBuf {
        Path::new(env!("CARGO_MANIFEST_DIR")).join("../docs").join(self.file)
    }

    /// The page with all its blocks as they should be. A mark that no block has would stand around a table that nobody makes.
    pub fn filled(&self, page: &str) -> Result<String, String> {
        let marks = page.matches(OPENING).count();
        if marks != self.blocks.len() {
            let made = self.blocks.len();
            return Err(self.wrong(format!("{marks} tables are marked, and {made} are made")));
        }
        let put = |page: String, block: &Block| block.put_into(&page).map_err(|wrong| self.wrong(wrong));
        self.blocks.iter().try_fold(String::from(page), put)
    }

    /// Whether the stored page is as it should be; else its first other line.
    pub fn check(&self) -> Result<(), String> {
        let stored = self.stored()?;
        let filled = self.filled(&stored)?;
        if stored == filled {
            return Ok(());
        }
        let mut lines = stored.lines().zip(filled.lines());
        let other = lines.find(|(stored, made)| stored != made);
        Err(format!("{other:?}; `{COMMAND}` writes docs/{} again", self.file))
    }

    /// Writes the tables again.
    pub fn write(&self) -> Result<(), String> {
        let filled = self.filled(&self.stored()?)?;
        fs::write(self.path(), filled).map_err(|error| self.wrong(error))
    }

    pub fn stored(&self) -> Result<String, String> {
        fs::read_to_string(self.path()).map_err(|error| self.wrong(error))
    }

    fn wrong(&self, wrong: impl std::fmt::Display) -> String {
        format!("docs/{}: {wrong}", self.file)
    }
}

/// A table in the pages' form: its first row, then the others.
pub(crate) fn table(head: &[String], rows: &[Vec<String>]) -> String {
    let rule = vec![String::from("---"); head.len()];
    let first = format!("{}|{}|\n", row(head), rule.join("|"));
    rows.iter().fold(first, |table, cells| table + &row(cells))
}

fn row(cells: &[String]) -> String {
    format!("| {} |\n", cells.join(" | "))
}
