//! Reading a damaged word by vote.

use super::shape::{Refusal, Shape};
use super::square::{checks_on, is_codeword, syndromes, weight, xor};
use std::collections::BTreeMap;

/// At each position the nonzero value that strictly more than half of its checks show, or 0.
fn votes(shape: Shape, received: &[u32]) -> Vec<u32> {
    let values = syndromes(shape, received);
    let vote = |j: usize| {
        let mut ballot: BTreeMap<u32, usize> = BTreeMap::new();
        checks_on(shape, j).for_each(|check| *ballot.entry(values[check]).or_default() += 1);
        let won = |(&value, &count): (&u32, &usize)| (value != 0 && 2 * count > shape.n as usize).then_some(value);
        ballot.iter().find_map(won).unwrap_or(0)
    };
    (0..received.len()).map(vote).collect()
}

/// Changes the word to the codeword that differs in at most n/2 symbols, and gives the number of symbols changed.
pub fn decode_majority(shape: Shape, word: &mut [u32]) -> Result<u32, Refusal> {
    shape.judge()?;
    shape.judge_symbols(word, shape.word_len())?;
    let changes = votes(shape, word);
    let changed = xor(word, &changes);
    if weight(&changes) > shape.most_votes() || !is_codeword(shape, &changed) {
        return Err(Refusal::NoMajority);
    }
    word.copy_from_slice(&changed);
    Ok(weight(&changes) as u32)
}
