//! A model of the engine, written from documents 01 and 02 and not from the proved code: its graph layer, its reader and
//! writer of texts, begin and the four steps, load windows, and the desk program; and the generators of the trials.
//!
//! `trials` lists the graphs from fixed seeds, `text` spells them as lines, and `model` says what each must answer; `cyclic` has
//! large graphs with cycles.
//! `texts` lists the task texts, `frames` frames them, and `reader` says what each must answer; `plain` is a reader as one
//! would write it without proofs, to compare costs with. `writer` says what saving a graph as a text must answer,
//! `saves` draws the graphs and compares, and `plain_writer` is the plain one.
//! `windows` says what load windows must answer, `loads` draws the lists and compares, and `plain_windows` are the plain ones.
//! `scripts` lists whole runs, `script` spells them as lines, and says by `engine` what each must answer.
//! `runs` draws lists of calls over a lent `memory`, `damages` lists damaged words, `engine` says what each must answer, and
//! `demand3` checks whole runs; `mixed` shares lists of calls out between the engine and the preview.
//! `plain_engine` is begin and the steps without proofs, `plain_preview` the same with the preview's limits; `measured` has the
//! runs that costs are compared on, and `beside` makes the calls of an engine beside the model's. `proved`, `proved_engine`,
//! `proved_weak` and `ref_engine` call the proved code; `exports` is the interface of the exports, and `plain_export` puts the plain engine,
//! writer and load windows behind it.
//! `weak` is the model of weak jobs, `plain_weak` the plain one, `weak_beside` compares, `weak_demand3` checks whole runs, and
//! `weak_exports` is the interface of their exports, behind which `plain_weak_export` puts the plain one; `runs` and `damages` draw
//! their calls too.
//! `rule`, `weak_rule` and `refusals` make the tables that stand in the pages of `docs`, and `pages` puts them there.

pub mod beside;
pub mod cyclic;
pub mod damages;
pub mod demand3;
pub mod desk;
pub mod draw;
pub mod engine;
pub mod engines;
pub mod exports;
pub mod frames;
pub mod loads;
pub mod measured;
pub mod memory;
pub mod mixed;
pub mod model;
pub mod pages;
pub mod plain;
pub mod plain_engine;
pub mod plain_export;
pub mod plain_preview;
pub mod plain_weak;
pub mod plain_weak_export;
pub mod plain_windows;
pub mod plain_writer;
#[cfg(feature = "linked")]
pub mod proved;
#[cfg(feature = "linked")]
pub mod proved_engine;
#[cfg(feature = "linked")]
pub mod proved_weak;
pub mod reader;
#[cfg(feature = "linked")]
pub mod ref_engine;
pub mod refusals;
pub mod rule;
pub mod runs;
pub mod saves;
pub mod script;
pub mod scripts;
pub mod text;
pub mod texts;
pub mod trials;
pub mod weak;
pub mod weak_beside;
pub mod weak_demand3;
pub mod weak_exports;
pub mod weak_rule;
pub mod windows;
pub mod writer;
