//! Begins a graph with cycles with the proved engine and with the plain one behind the same interface, for the script `bench`:
//! `bench-refused SHAPE TASKS`.
//! It prints the number of edges, and fails unless both answer 5 with the same detail and write nothing.

use engine_model::cyclic::Shape;
use engine_model::measured::{looped_memory, SLOTS};
use engine_model::plain_engine::Lent;
use engine_model::{plain_export, proved_engine};
use std::env;

const WORKERS: usize = 4;

fn main() {
    let words: Vec<String> = env::args().skip(1).collect();
    let [shape, tasks] = words.as_slice() else {
        panic!("a shape and a number of tasks");
    };
    let shape = Shape::named(shape).expect("a shape");
    let mut memory = looped_memory(shape, tasks.parse().expect("a number of tasks"), WORKERS);
    let before = memory.clone();
    let proved = proved_engine::begin(&mut Lent::of(&mut memory), WORKERS, SLOTS);
    let plain = plain_export::begin(&mut Lent::of(&mut memory), WORKERS, SLOTS);
    assert_eq!(proved, plain);
    assert_eq!(proved.map_err(|refusal| refusal.number), Err(5));
    assert_eq!(memory, before);
    println!("{}", memory.e());
}
