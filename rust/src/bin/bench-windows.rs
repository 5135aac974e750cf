//! The load windows of one finished run by the proved call and by the plain one behind the same interface, for the script
//! `bench`: `bench-windows TASKS WORKERS M CALLS`. It prints nothing, and fails unless both give the same.

use engine_model::measured::record;
use engine_model::{plain_export, proved};
use std::env;
use std::hint::black_box;

fn main() {
    let mut words = env::args().skip(1).map(|word| word.parse());
    let mut number = || words.next().and_then(Result::ok).expect("tasks, workers, m and calls");
    let [tasks, workers, m, calls]: [usize; 4] = [(); 4].map(|()| number());

    let lent = record(tasks, workers);
    for _ in 0..calls {
        let mut results = [(); 2].map(|()| vec![0; lent.words(m)]);
        let [found, plain_found] = &mut results;
        let proved = proved::windows(black_box(&lent.weights), &lent.executed, &lent.run, found, workers, m);
        let plain = plain_export::windows(
            black_box(&lent.weights),
            &lent.executed,
            &lent.run,
            plain_found,
            workers,
            m,
        );
        assert_eq!(proved, Ok(()));
        assert_eq!(plain, Ok(()));
        assert_eq!(results[0], results[1]);
    }
}
