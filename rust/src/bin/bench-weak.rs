//! Makes one weak run with the proved calls, the same with the plain ones behind the same interface, and with the plain ones called
//! as Rust, for the script `bench`: `bench-weak TASKS WORKERS`.
//! It prints nothing, and fails unless all of them answer the same and leave the same words.

use engine_model::engine::Engine;
use engine_model::measured::{make_alike, sizes, weak_accepted_steps, weak_memory, SLOTS};
use engine_model::memory::Step;
use engine_model::model::Refusal;
use engine_model::plain_weak::{self, Lent};
use engine_model::plain_weak_export;
use engine_model::proved_weak::PROVED;
use engine_model::weak::Outcome;

// The plain weak calls as Rust, whose instructions are counted: each a function with a name of its own.

#[inline(never)]
fn native_weak_begin(lent: &mut Lent, p: usize) -> Result<(), Refusal> {
    plain_weak::begin(lent, p, SLOTS)
}

#[inline(never)]
fn native_weak_fetch(lent: &mut Lent, p: usize, worker: u32) -> Result<Outcome, Refusal> {
    plain_weak::fetch(lent, p, SLOTS, worker)
}

#[inline(never)]
fn native_weak_start(lent: &mut Lent, p: usize, worker: u32) -> Result<Outcome, Refusal> {
    plain_weak::start(lent, p, SLOTS, worker)
}

#[inline(never)]
fn native_weak_complete(lent: &mut Lent, p: usize, worker: u32) -> Result<Outcome, Refusal> {
    plain_weak::complete(lent, p, SLOTS, worker)
}

#[inline(never)]
fn native_weak_release(lent: &mut Lent, p: usize, worker: u32) -> Result<Outcome, Refusal> {
    plain_weak::release(lent, p, SLOTS, worker)
}

fn native_step(lent: &mut Lent, p: usize, worker: u32, step: Step) -> Result<Outcome, Refusal> {
    match step {
        Step::Fetch => native_weak_fetch(lent, p, worker),
        Step::Start => native_weak_start(lent, p, worker),
        Step::Complete => native_weak_complete(lent, p, worker),
        Step::Release => native_weak_release(lent, p, worker),
    }
}

fn main() {
    let [tasks, workers] = sizes();
    let memory = weak_memory(tasks, workers);
    let steps = weak_accepted_steps(memory.clone(), workers, SLOTS);
    let plain = Engine {
        name: "plain, exported",
        begin: |memory, p, k| plain_weak_export::begin(&mut Lent::of(memory), p, k),
        step: |memory, p, k, worker, step| plain_weak_export::step(&mut Lent::of(memory), p, k, worker, step),
    };
    let native = Engine {
        name: "plain, by slices",
        begin: |memory, p, _| native_weak_begin(&mut Lent::of(memory), p),
        step: |memory, p, _, worker, step| native_step(&mut Lent::of(memory), p, worker, step),
    };
    make_alike(&[PROVED, plain, native], memory, workers, steps);
}
