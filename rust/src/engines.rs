//! The engines that the examples and edges of document 01 are tried on, and the previews and weak calls that those of document 02 are.

use crate::engine::{Engine, MODEL, PREVIEW};
use crate::plain_engine;
use crate::plain_preview;
use crate::plain_weak;
#[cfg(feature = "linked")]
use crate::proved_engine::{self, PROVED};
#[cfg(feature = "linked")]
use crate::proved_weak;
#[cfg(feature = "linked")]
use crate::ref_engine::RECORDS;
use crate::weak;

pub fn all() -> Vec<Engine> {
    vec![
        MODEL,
        plain_engine::PLAIN,
        #[cfg(feature = "linked")]
        PROVED,
        #[cfg(feature = "linked")]
        RECORDS,
    ]
}

pub fn previews() -> Vec<Engine> {
    vec![
        PREVIEW,
        plain_preview::PLAIN,
        #[cfg(feature = "linked")]
        proved_engine::preview::PREVIEW,
    ]
}

pub fn weak() -> Vec<Engine<weak::Memory>> {
    vec![
        weak::MODEL,
        plain_weak::PLAIN,
        #[cfg(feature = "linked")]
        proved_weak::PROVED,
    ]
}
