//! Checking a word that somebody else restored.

use super::shape::{Refusal, Shape};
use super::square::{is_codeword, is_unmasked, weight, xor};

/// 1 if the proposal is a codeword and the difference an unmasked error of weight at most n - 1, else 0.
pub fn check(shape: Shape, received: &[u32], proposed: &[u32]) -> Result<u32, Refusal> {
    shape.judge()?;
    let words = [received, proposed];
    if words.iter().any(|word| word.len() != shape.word_len()) {
        return Err(Refusal::Length);
    }
    if !words.iter().all(|word| shape.all_fit(word)) {
        return Err(Refusal::Width);
    }
    let error = xor(received, proposed);
    let restores = is_codeword(shape, proposed) && is_unmasked(shape, &error) && weight(&error) <= shape.most_errors();
    Ok(restores.into())
}
