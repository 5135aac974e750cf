//! Who makes the calls of a job: the engine, or the preview with its smaller limits, which call one core; or the engine
//! for a weak job.

use crate::ffi::{self, Calls};
use crate::kinds::{Kind, Plain, Weak};
use crate::limits::{
    MAX_EDGES, MAX_SLOTS, MAX_TASKS, MAX_WORKERS, PREVIEW_MAX_EDGES, PREVIEW_MAX_SLOTS, PREVIEW_MAX_TASKS,
    PREVIEW_MAX_WORKERS,
};

/// A caller of the core: [`Engine`], [`Planner`] or [`WeakEngine`]. There are no others.
pub trait Caller: Sealed {}

/// The engine's calls and limits: those of a [`Job`](crate::Job).
#[derive(Clone, Copy, Debug, PartialEq, Eq, Hash)]
pub struct Engine;

/// The preview's calls and limits: those of a [`Preview`](crate::Preview).
#[derive(Clone, Copy, Debug, PartialEq, Eq, Hash)]
pub struct Planner;

/// The engine's calls and limits for weak jobs: those of a [`WeakJob`](crate::WeakJob).
#[derive(Clone, Copy, Debug, PartialEq, Eq, Hash)]
pub struct WeakEngine;

impl Caller for Engine {}
impl Caller for Planner {}
impl Caller for WeakEngine {}

/// What a caller is, for this crate alone.
pub trait Sealed {
    /// What its rings hold.
    type Kind: Kind;
    /// Whose limits it has.
    const WHOSE: Whose;
    /// Its calls.
    const CALLS: Calls<Self::Kind>;
}

impl Sealed for Engine {
    type Kind = Plain;
    const WHOSE: Whose = Whose::Engine;
    const CALLS: Calls = ffi::ENGINE;
}

impl Sealed for Planner {
    type Kind = Plain;
    const WHOSE: Whose = Whose::Preview;
    const CALLS: Calls = ffi::PREVIEW;
}

impl Sealed for WeakEngine {
    type Kind = Weak;
    const WHOSE: Whose = Whose::Engine;
    const CALLS: Calls<Weak> = ffi::WEAK;
}

/// What waits, is fetched and is held in a job of this caller: a task, or a weak job's copy.
pub type ItemOf<C> = <<C as Sealed>::Kind as Kind>::Item;

/// What an accepted Release of this caller did.
pub type ReleasedOf<C> = <<C as Sealed>::Kind as Kind>::Released;

/// Whose limits.
#[derive(Clone, Copy, Debug, PartialEq, Eq)]
pub enum Whose {
    /// The engine's.
    Engine,
    /// The preview's.
    Preview,
}

impl Whose {
    /// N at most.
    pub(crate) const fn tasks(self) -> usize {
        match self {
            Whose::Engine => MAX_TASKS,
            Whose::Preview => PREVIEW_MAX_TASKS,
        }
    }

    /// E at most.
    pub(crate) const fn edges(self) -> usize {
        match self {
            Whose::Engine => MAX_EDGES,
            Whose::Preview => PREVIEW_MAX_EDGES,
        }
    }

    /// P at most.
    pub(crate) const fn workers(self) -> usize {
        match self {
            Whose::Engine => MAX_WORKERS,
            Whose::Preview => PREVIEW_MAX_WORKERS,
        }
    }

    /// K at most.
    pub(crate) const fn slots(self) -> usize {
        match self {
            Whose::Engine => MAX_SLOTS,
            Whose::Preview => PREVIEW_MAX_SLOTS,
        }
    }
}
