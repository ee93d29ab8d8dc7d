//! Plain Rust counterparts of the proved entries, for the benchmark. They answer as the library does:
//! a refusal is 2^31 plus its number. They test a shape's slopes as the library does, but go by the
//! standard ones, so only shapes with these are for them.

pub mod arrival;
pub mod elimination;
pub mod straightforward;
pub mod tuned;
pub mod vote;

use crate::reference::shape::{Refusal, Shape};

/// The most checks, 8 directions of 31 lines.
const MAX_CHECKS: usize = 248;

/// The most symbols that reading changes.
const MAX_ERRORS: usize = 7;

pub fn refused(refusal: Refusal) -> u32 {
    (1 << 31) + refusal.number()
}

/// Tests 1, 18, 2 and 3 of reading.
fn judge(shape: Shape, word: &[u32]) -> Option<Refusal> {
    if let Err(refusal) = shape.judge() {
        Some(refusal)
    } else if word.len() != shape.word_len() {
        Some(Refusal::Length)
    } else if !fit(shape, word) {
        Some(Refusal::Width)
    } else {
        None
    }
}

/// Tests 1, 18, 2 and 3 of writing. The scratch is cleared as soon as the lengths are right.
fn judge_writing(shape: Shape, data: &[u32], scratch: &mut [u32], word: &[u32]) -> Option<Refusal> {
    if let Err(refusal) = shape.judge() {
        return Some(refusal);
    }
    let right = (shape.data_len(), shape.scratch_len(), shape.word_len());
    if (data.len(), scratch.len(), word.len()) != right {
        return Some(Refusal::Length);
    }
    scratch.fill(0);
    (!fit(shape, data)).then_some(Refusal::Width)
}

/// Tests 1, 18, 2, 3 and 12 of filling in. The scratch is cleared as soon as the lengths are right.
fn judge_filling(shape: Shape, places: &[u32], word: &[u32], scratch: &mut [u32]) -> Option<Refusal> {
    if let Err(refusal) = shape.judge() {
        return Some(refusal);
    }
    if (word.len(), scratch.len()) != (shape.word_len(), shape.scratch_len()) {
        return Some(Refusal::Length);
    }
    scratch.fill(0);
    if !fit(shape, word) {
        return Some(Refusal::Width);
    }
    let rising = places.windows(2).all(|pair| pair[0] < pair[1]);
    let below = places.last().is_none_or(|&last| (last as usize) < word.len());
    (!(rising && below)).then_some(Refusal::Places)
}

/// One OR over all symbols is faster than a test of each.
fn fit(shape: Shape, symbols: &[u32]) -> bool {
    shape.fits(symbols.iter().fold(0, |all, symbol| all | symbol))
}
