//! Restoring a word with dead cells and other damage, up to half the distance.
//!
//! It goes bit by bit, as reading the nearest codeword does. Take the f listed bits all for 0, or all for 1: in one of
//! the two cases at most f/2 of them are wrong. With at most (2n - 1 - f)/2 wrong bits elsewhere that makes at most
//! n - 1, so that the nearest codeword of that case is the one looked for.

use super::filler::{agreeing, rising, Agreeing};
use super::nearest::BitReader;
use super::shape::{Refusal, Shape};
use super::square::{checks_on, is_codeword, syndromes};

/// How many symbols may be wrong beside so many listed places.
pub fn reach(shape: Shape, listed: usize) -> usize {
    (2 * shape.n as usize - 1).saturating_sub(listed) / 2
}

/// At how many positions that are not listed the two differ.
fn strays(places: &[u32], word: &[u32], other: &[u32]) -> usize {
    let stray = |&j: &usize| word[j] != other[j] && !places.contains(&(j as u32));
    (0..word.len()).filter(stray).count()
}

/// The codeword within reach, where the places are fewer than 2n. What the bits propose is accepted by that alone.
fn within_reach(shape: Shape, places: &[u32], word: &[u32]) -> Option<Vec<u32>> {
    let most = reach(shape, places.len());
    let mut found = word.to_vec();
    places.iter().for_each(|&place| found[place as usize] = 0);
    let values = syndromes(shape, &found);
    let mut reader = BitReader::new(shape);
    for place in 0..shape.b {
        let odd: Vec<bool> = values.iter().map(|value| value >> place & 1 == 1).collect();
        for j in changed_bits(shape, places, odd, most, &mut reader)? {
            found[j] ^= 1 << place;
        }
    }
    (is_codeword(shape, &found) && strays(places, word, &found) <= most).then_some(found)
}

/// The positions to change in a word of width 1 that has 0 at the listed places and makes these checks odd.
fn changed_bits(
    shape: Shape,
    places: &[u32],
    mut odd: Vec<bool>,
    most: usize,
    reader: &mut BitReader,
) -> Option<Vec<usize>> {
    let listed = |j: &usize| places.contains(&(*j as u32));
    let few = |wrong: &Vec<usize>| wrong.iter().filter(|j| !listed(j)).count() <= most;
    if let Some(wrong) = reader.wrong(odd.clone()).filter(|wrong| few(wrong)) {
        return Some(wrong.clone());
    }
    let all: Vec<usize> = places.iter().map(|&place| place as usize).collect();
    all.iter().flat_map(|&j| checks_on(shape, j)).for_each(|check| odd[check] = !odd[check]);
    let wrong = reader.wrong(odd).filter(|wrong| few(wrong))?;
    let (back, others): (Vec<usize>, Vec<usize>) = wrong.iter().partition(|j| listed(j));
    Some(all.into_iter().filter(|j| !back.contains(j)).chain(others).collect())
}

/// Restores the word and gives the number of symbols changed.
pub fn restore(shape: Shape, places: &[u32], word: &mut [u32], scratch: &mut [u32]) -> Result<u32, Refusal> {
    shape.judge()?;
    if word.len() != shape.word_len() || scratch.len() != shape.scratch_len() {
        return Err(Refusal::Length);
    }
    scratch.fill(0);
    if !shape.all_fit(word) {
        return Err(Refusal::Width);
    }
    if !rising(shape, places) {
        return Err(Refusal::Places);
    }
    let restored = if places.len() < 2 * shape.n as usize {
        within_reach(shape, places, word).ok_or(Refusal::Far)?
    } else {
        match agreeing(shape, places, word) {
            Agreeing::None => return Err(Refusal::Far),
            Agreeing::Several(..) => return Err(Refusal::Ambiguous),
            Agreeing::One(only) => only,
        }
    };
    let changed = word.iter().zip(&restored).filter(|(came, is)| came != is).count();
    word.copy_from_slice(&restored);
    Ok(changed as u32)
}
