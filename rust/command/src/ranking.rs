//! The functions by their calls.

use crate::tally::FUNCTIONS;
use std::cmp::Reverse;

/// A function that was called.
#[derive(Clone, Copy)]
pub struct Ranked {
    pub function: usize,
    pub calls: u32,
    /// Its calls and those of all functions before it.
    pub running: u64,
}

/// The most called first; of equal ones the lower number.
pub fn ranking(calls: &[u32; FUNCTIONS]) -> Vec<Ranked> {
    let mut order: Vec<usize> = (1..FUNCTIONS).filter(|&function| calls[function] > 0).collect();
    order.sort_by_key(|&function| (Reverse(calls[function]), function));
    let mut running = 0;
    let ranked = order.into_iter().map(|function| {
        running += u64::from(calls[function]);
        Ranked { function, calls: calls[function], running }
    });
    ranked.collect()
}

/// The calls of all functions.
pub fn total(calls: &[u32; FUNCTIONS]) -> u64 {
    calls.iter().map(|&calls| u64::from(calls)).sum()
}

/// How many functions, the most called ones, have at least half of all calls.
pub fn half(ranked: &[Ranked]) -> usize {
    let total = ranked.last().map_or(0, |last| last.running);
    ranked.iter().take_while(|one| 2 * one.running < total).count() + usize::from(total > 0)
}
