//! Makes one run with the proved engine, the same with the plain one behind the same interface, and with the plain one called
//! as Rust, for the script `bench`: `bench-engine TASKS WORKERS`.
//! It prints nothing, and fails unless all of them answer the same and leave the same words.

use engine_model::engine::Engine;
use engine_model::measured::{accepted_steps, make_alike, memory, sizes, SLOTS};
use engine_model::memory::{Outcome, Step};
use engine_model::model::Refusal;
use engine_model::plain_engine::{self, Lent};
use engine_model::plain_export;
use engine_model::proved_engine::PROVED;

// The plain engine's calls as Rust, whose instructions are counted: each a function with a name of its own.

#[inline(never)]
fn native_begin(lent: &mut Lent, p: usize) -> Result<(), Refusal> {
    plain_engine::begin(lent, p, SLOTS)
}

#[inline(never)]
fn native_fetch(lent: &mut Lent, p: usize, worker: u32) -> Result<Outcome, Refusal> {
    plain_engine::fetch(lent, p, SLOTS, worker)
}

#[inline(never)]
fn native_start(lent: &mut Lent, p: usize, worker: u32) -> Result<Outcome, Refusal> {
    plain_engine::start(lent, p, SLOTS, worker)
}

#[inline(never)]
fn native_complete(lent: &mut Lent, p: usize, worker: u32) -> Result<Outcome, Refusal> {
    plain_engine::complete(lent, p, SLOTS, worker)
}

#[inline(never)]
fn native_release(lent: &mut Lent, p: usize, worker: u32) -> Result<Outcome, Refusal> {
    plain_engine::release(lent, p, SLOTS, worker)
}

fn native_step(lent: &mut Lent, p: usize, worker: u32, step: Step) -> Result<Outcome, Refusal> {
    match step {
        Step::Fetch => native_fetch(lent, p, worker),
        Step::Start => native_start(lent, p, worker),
        Step::Complete => native_complete(lent, p, worker),
        Step::Release => native_release(lent, p, worker),
    }
}

fn main() {
    let [tasks, workers] = sizes();
    let memory = memory(tasks, workers);
    let steps = accepted_steps(memory.clone(), workers, SLOTS);
    let plain = Engine {
        name: "plain, exported",
        begin: |memory, p, k| plain_export::begin(&mut Lent::of(memory), p, k),
        step: |memory, p, k, worker, step| plain_export::step(&mut Lent::of(memory), p, k, worker, step),
    };
    let native = Engine {
        name: "plain, by slices",
        begin: |memory, p, _| native_begin(&mut Lent::of(memory), p),
        step: |memory, p, _, worker, step| native_step(&mut Lent::of(memory), p, worker, step),
    };
    make_alike(&[PROVED, plain, native], memory, workers, steps);
}
