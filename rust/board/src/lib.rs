//! The lesson board: a terminal program on the proved engine, on which operators learn to foresee the next lane.
//!
//! It is a host of the library like any other, and nothing is proved of it: every answer that it shows is the
//! library's. [`screen::frame`] is the screen as a function of the [`board::Board`], whose keys are
//! [`board::Board::press`]; [`terminal`] joins the two to a terminal, [`script`] to a file of keys, and [`page`] writes
//! the same lesson as a page for a browser.

#![forbid(unsafe_code)]
#![deny(missing_docs)]

pub mod answer;
pub mod board;
pub mod keys;
pub mod kind;
pub mod number;
pub mod page;
pub mod screen;
pub mod script;
pub mod states;
pub mod terminal;
mod wrap;
