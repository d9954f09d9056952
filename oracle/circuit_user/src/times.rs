//! Times of both sides on the same work.

use std::time::Instant;

use crate::{owned, source};

/// How many queries the work has.
const QUERIES: usize = 100_000;
/// Of so many runs the best is told.
const RUNS: usize = 7;

/// The best times of a side, by the work's name.
#[derive(Default)]
pub struct Timed(Vec<(&'static str, f64)>);

impl Timed {
    /// Does the work again and again, and keeps the best time; what it made is dropped outside of it.
    pub fn time<T>(&mut self, name: &'static str, work: impl Fn() -> T) -> T {
        let run = || {
            let start = Instant::now();
            let made = work();
            (start.elapsed().as_secs_f64(), made)
        };
        let (mut best, mut made) = run();
        for _ in 1..RUNS {
            let (time, again) = run();
            best = best.min(time);
            made = again;
        }
        self.0.push((name, best));
        made
    }
}

/// Prints nanoseconds per query, or wire, of the module and of the six files, and their ratio.
pub fn run() {
    let (mut by_owned, mut by_source) = (Timed::default(), Timed::default());
    source::work::run(&mut by_source, QUERIES);
    owned::work::run(&mut by_owned, QUERIES);
    println!("{QUERIES} queries of width 8: nanoseconds per query, the best of {RUNS}");
    println!("{:>9} {:>9} {:>6}", "module", "source", "ratio");
    for ((name, owned), (_, source)) in by_owned.0.into_iter().zip(by_source.0) {
        let per = |seconds: f64| seconds * 1e9 / QUERIES as f64;
        let (owned, source) = (per(owned), per(source));
        println!("{owned:>9.1} {source:>9.1} {:>6.2} {name}", owned / source);
    }
}
