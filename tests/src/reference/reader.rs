//! Reading a damaged word.

use super::shape::{Refusal, Shape};
use super::square::{checks_on, is_codeword, is_unmasked, syndromes, weight, xor};

/// The error that explains the received word: XORed on, it leaves a codeword, it is unmasked, and at
/// most n - 1 of its symbols are nonzero. What is proposed is accepted by that definition alone.
pub fn error_of(shape: Shape, received: &[u32]) -> Option<Vec<u32>> {
    let error = propose(shape, received)?;
    let explains = is_codeword(shape, &xor(received, &error))
        && is_unmasked(shape, &error)
        && weight(&error) <= shape.most_errors();
    explains.then_some(error)
}

/// The only error that could explain the word. It stands where all checks are nonzero, and shows its
/// value on a check that holds no other such position.
fn propose(shape: Shape, received: &[u32]) -> Option<Vec<u32>> {
    let values = syndromes(shape, received);
    let nonzero = |&j: &usize| checks_on(shape, j).all(|check| values[check] != 0);
    let located: Vec<usize> = (0..received.len()).filter(nonzero).collect();
    if located.len() > shape.most_errors() {
        return None;
    }
    let mut error = vec![0; received.len()];
    for &j in &located {
        let alone = |&check: &usize| located.iter().all(|&i| i == j || checks_on(shape, i).all(|other| other != check));
        error[j] = values[checks_on(shape, j).find(alone)?];
    }
    Some(error)
}

/// How many checks of each symbol are looked at, in rising direction: up to and with the first whose
/// value is zero, or all of them.
pub fn looked(shape: Shape, word: &[u32], list: &mut [u32]) -> Result<(), Refusal> {
    shape.judge()?;
    if word.len() != shape.word_len() || list.len() != shape.word_len() {
        return Err(Refusal::Length);
    }
    if !shape.all_fit(word) {
        return Err(Refusal::Width);
    }
    let values = syndromes(shape, word);
    for (j, number) in list.iter_mut().enumerate() {
        let silent = checks_on(shape, j).position(|check| values[check] == 0);
        *number = silent.map_or(shape.n, |t| t as u32 + 1);
    }
    Ok(())
}

/// Restores the word and gives the number of symbols changed.
pub fn decode(shape: Shape, word: &mut [u32]) -> Result<u32, Refusal> {
    shape.judge()?;
    shape.judge_symbols(word, shape.word_len())?;
    let error = error_of(shape, word).ok_or(Refusal::Uncorrectable)?;
    word.copy_from_slice(&xor(word, &error));
    Ok(weight(&error) as u32)
}
