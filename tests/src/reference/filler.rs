//! Filling in the symbols at places that are named as gone.

use super::elimination::Basis;
use super::shape::{Refusal, Shape};
use super::square::syndromes;

/// The codewords that are the word at every position that is not listed.
#[derive(Clone, Debug, PartialEq, Eq)]
pub enum Agreeing {
    None,
    One(Vec<u32>),
    /// Two of them.
    Several(Vec<u32>, Vec<u32>),
}

/// Changes at the listed places must make the word's check values. There is one way at most if and only
/// if the places' columns are independent; else a codeword that has nothing off them can be added.
pub fn agreeing(shape: Shape, places: &[u32], word: &[u32]) -> Agreeing {
    let mut basis = Basis::default();
    let mut dependent = None;
    for j in places.iter().map(|&place| place as usize) {
        if let Some(sum) = basis.take(shape, j) {
            dependent = Some((j, sum));
        }
    }
    let Some(changes) = basis.solve(syndromes(shape, word)) else {
        return Agreeing::None;
    };
    let mut one = word.to_vec();
    for (&j, change) in basis.positions.iter().zip(changes) {
        one[j] ^= change;
    }
    let Some((j, sum)) = dependent else {
        return Agreeing::One(one);
    };
    let mut another = one.clone();
    sum.into_iter().chain([j]).for_each(|j| another[j] ^= 1);
    Agreeing::Several(one, another)
}

/// Fills the word in and gives the number of symbols changed.
pub fn fill(shape: Shape, places: &[u32], word: &mut [u32], scratch: &mut [u32]) -> Result<u32, Refusal> {
    shape.judge()?;
    if word.len() != shape.word_len() || scratch.len() != shape.scratch_len() {
        return Err(Refusal::Length);
    }
    scratch.fill(0);
    if !shape.all_fit(word) {
        return Err(Refusal::Width);
    }
    if !rising(shape, places) {
        return Err(Refusal::Places);
    }
    match agreeing(shape, places, word) {
        Agreeing::None => Err(Refusal::Unfillable),
        Agreeing::Several(..) => Err(Refusal::Ambiguous),
        Agreeing::One(filled) => {
            let changed = word.iter().zip(&filled).filter(|(came, is)| came != is).count();
            word.copy_from_slice(&filled);
            Ok(changed as u32)
        }
    }
}

/// Test 12: each place is a position, and above the one before it.
pub(super) fn rising(shape: Shape, places: &[u32]) -> bool {
    places.iter().all(|&place| (place as usize) < shape.word_len()) && places.windows(2).all(|pair| pair[0] < pair[1])
}
