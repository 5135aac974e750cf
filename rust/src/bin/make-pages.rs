//! Writes the tables of docs/RULE.md and docs/REFUSALS.md again: `cargo run --bin make-pages`.

use engine_model::pages;

fn main() -> Result<(), String> {
    pages::rule().write()?;
    pages::refusals().write()
}
