//! Contenders at the same work, one after the other, round after round, so that load on the machine hits all alike.

use std::fmt::Debug;

use crate::cpu::nanoseconds;

/// A contender, what it has to answer, and the least processor time that it took so far.
pub struct Lane<'a, T> {
    pub name: String,
    want: T,
    run: Box<dyn FnMut() -> T + 'a>,
    pub best: f64,
}

impl<'a, T> Lane<'a, T> {
    pub fn new(name: impl Into<String>, want: T, run: impl FnMut() -> T + 'a) -> Lane<'a, T> {
        Lane {
            name: name.into(),
            want,
            run: Box::new(run),
            best: f64::MAX,
        }
    }
}

/// Runs the lanes `rounds` times, after a round that warms up. Whoever answers otherwise than it has to, in any round, ends the benchmark.
pub fn race<T: Debug + PartialEq>(lanes: &mut [Lane<T>], rounds: u32) {
    for round in 0..=rounds {
        for lane in &mut *lanes {
            let start = nanoseconds();
            let answer = (lane.run)();
            let took = nanoseconds() - start;
            assert_eq!(answer, lane.want, "contenders disagree: {}", lane.name);
            if round > 0 {
                lane.best = lane.best.min(took);
            }
        }
    }
}

/// Prints each lane's time for one of `count` things, and how many times as fast the first lane is.
pub fn print<T>(lanes: &[Lane<T>], count: u64, thing: &str, bytes: Option<usize>) {
    for lane in lanes {
        let speed = bytes.map_or(String::new(), |b| {
            format!("{:6.2} GB/s ", b as f64 / lane.best)
        });
        println!(
            "  {:48} {speed}{:9.1} ns a {thing}   ours is {:5.2} x",
            lane.name,
            lane.best / count as f64,
            lane.best / lanes[0].best
        );
    }
}
