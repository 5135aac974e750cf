//! Document 01's examples and edges of begin and the steps, each expected value reasoned from the paper's words.

#[path = "../common/board.rs"]
mod any_board;
#[path = "../common/diamond.rs"]
mod diamond;

mod begin;
mod board;
mod damages;
mod examples;
mod steps;
