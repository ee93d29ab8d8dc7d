//! Reading a word with at most two wrong symbols, whether they cancel on a check or not.

use super::shape::{Refusal, Shape};
use super::square::{checks_on, syndromes};

/// Positions, all different, with the nonzero symbols to XOR on.
type Error = Vec<(usize, u32)>;

/// The error of at most two symbols that leaves a codeword. There is one at most: with three directions
/// different codewords differ in six symbols or more.
pub fn error_of_two(shape: Shape, received: &[u32]) -> Option<Error> {
    let values = syndromes(shape, received);
    let candidates = candidates(shape, &values);
    let nothing = std::iter::once(vec![]);
    let one = candidates.iter().map(|&j| vec![(j, shown(shape, &values, j, None))]);
    let pairs = candidates.iter().flat_map(|&i| candidates.iter().filter(move |&&j| i < j).map(move |&j| (i, j)));
    let two = pairs.map(|(i, j)| vec![(i, shown(shape, &values, i, Some(j))), (j, shown(shape, &values, j, Some(i)))]);
    let proposals = nothing.chain(one).chain(two);
    proposals.filter(|error| error.iter().all(|&(_, symbol)| symbol != 0)).find(|error| explains(shape, &values, error))
}

/// Where a wrong symbol can be. Two of them touch two lines of a direction at most, so if some direction
/// shows more there are none. The other one shares one check at most, so all but one are nonzero.
fn candidates(shape: Shape, values: &[u32]) -> Vec<usize> {
    let nonzero = |line: &&u32| **line != 0;
    let crowded = |direction: &[u32]| direction.iter().filter(nonzero).count() > 2;
    if values.chunks(shape.q as usize).any(crowded) {
        return vec![];
    }
    let silent = |j: usize| checks_on(shape, j).filter(|&check| values[check] == 0).count();
    (0..shape.word_len()).filter(|&j| silent(j) <= 1).collect()
}

/// What the first check on j shows that the other position is not on.
fn shown(shape: Shape, values: &[u32], j: usize, other: Option<usize>) -> u32 {
    let shared = |check: usize| other.is_some_and(|i| checks_on(shape, i).any(|of_other| of_other == check));
    let own = checks_on(shape, j).find(|&check| !shared(check));
    values[own.expect("two positions share one check at most")]
}

/// The error has the word's check values.
fn explains(shape: Shape, values: &[u32], error: &Error) -> bool {
    let mut left = values.to_vec();
    for &(j, symbol) in error {
        checks_on(shape, j).for_each(|check| left[check] ^= symbol);
    }
    left.iter().all(|&value| value == 0)
}

/// Restores the word and gives the number of symbols changed.
pub fn decode_two(shape: Shape, word: &mut [u32]) -> Result<u32, Refusal> {
    shape.judge()?;
    if shape.n < 3 {
        return Err(Refusal::Directions);
    }
    shape.judge_symbols(word, shape.word_len())?;
    let error = error_of_two(shape, word).ok_or(Refusal::BeyondTwo)?;
    error.iter().for_each(|&(j, symbol)| word[j] ^= symbol);
    Ok(error.len() as u32)
}
