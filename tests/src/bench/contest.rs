//! Timing some ways of doing the same, in turns, and telling the times.

use crate::reference::shape::Shape;
use std::time::{Duration, Instant};

pub const ROUNDS: usize = 31;

/// How long each contestant works in a round, at least, and in how many batches.
const TURN: Duration = Duration::from_millis(1);
const BATCHES: usize = 6;

/// Nanoseconds a word of the library, and its time over that of each other contestant.
pub struct Times {
    pub ours: f64,
    pub to_others: Vec<f64>,
}

/// A batch of words prepared and worked on by one contestant; it gives the time of the work alone.
pub type Batch<'a> = Box<dyn FnMut() -> Duration + 'a>;

/// Times the contestants, the library first, on batches of `words` words. They take turns within each
/// round, and a ratio is one round's, so that a slow moment of the machine hits all of them.
pub fn times<const C: usize>(words: usize, mut contestants: [Batch; C]) -> Times {
    let rounds: Vec<[f64; C]> = (0..ROUNDS).map(|_| contestants.each_mut().map(turn)).collect();
    let ratio = |other: usize| median(rounds.iter().map(|round| round[0] / round[other]).collect());
    Times {
        ours: median(rounds.iter().map(|round| round[0]).collect()) / words as f64,
        to_others: (1..C).map(ratio).collect(),
    }
}

/// The time of a batch in one turn, in nanoseconds: the shortest, since a batch is short enough not
/// to be interrupted but a turn is not.
fn turn(contestant: &mut Batch) -> f64 {
    let mut worked = Duration::ZERO;
    let mut shortest = Duration::MAX;
    let mut batches = 0;
    while worked < TURN || batches < BATCHES {
        let time = contestant();
        worked += time;
        shortest = shortest.min(time);
        batches += 1;
    }
    shortest.as_nanos() as f64
}

pub fn median(mut values: Vec<f64>) -> f64 {
    values.sort_by(f64::total_cmp);
    values[values.len() / 2]
}

pub fn timed(work: impl FnOnce()) -> Duration {
    let start = Instant::now();
    work();
    start.elapsed()
}

/// Prints a table's first lines: what is done, and what the library's time is divided by.
pub fn heading(work: &str, ratios: &[&str]) {
    println!("| shape | {work} | ns a word | {} |", ratios.join(" | "));
    println!("|---|---|---:|{}", "---:|".repeat(ratios.len()));
}

/// Prints a row; gives it if one of its ratios is above its target.
pub fn row(shape: Shape, work: &str, times: Times, targets: &[f64]) -> Option<String> {
    let (Shape { q, n, b, .. }, Times { ours, to_others }) = (shape, times);
    let ratios: Vec<String> = to_others.iter().map(|ratio| format!("{ratio:.2}")).collect();
    let row = format!("| ({q}, {n}, {b}) | {work} | {ours:.0} | {} |", ratios.join(" | "));
    println!("{row}");
    let missed = to_others.iter().zip(targets).any(|(ratio, target)| ratio > target);
    missed.then_some(row)
}
