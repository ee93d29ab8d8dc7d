//! Small shapes: all damage to at most n symbols, and what trying every codeword says.

use super::{expect_damaged, nearest};
use crate::call::{Call, Make};
use crate::damage::{any, damaged, Error};
use crate::groups::expect::expect_nearest;
use crate::random::Random;
use crate::reference::brute::{all_codewords, all_words};
use crate::reference::shape::{Refusal, Shape};
use crate::report::Verdict;

/// Every error of weight up to n on one codeword.
pub fn all_damage(make: Make, shape: Shape, random: &mut Random) -> Verdict {
    let sent = random.codeword(shape);
    let (mut errors, mut tried): (Vec<Error>, u64) = (vec![vec![]], 0);
    while let Some(error) = errors.pop() {
        expect_damaged(make, shape, &sent, &error)?;
        tried += 1;
        let from = error.last().map_or(0, |&(j, _)| j + 1);
        for j in (from..sent.len()).filter(|_| error.len() < shape.n as usize) {
            errors.extend((1..=shape.largest()).map(|symbol| [&error[..], &[(j, symbol)]].concat()));
        }
    }
    Ok(tried)
}

/// What the definition says: the codeword that is near enough, if there is one.
fn expect_near(make: Make, call: &Call, codewords: &[Vec<u32>]) -> Result<(), String> {
    expect_nearest(make, call, codewords, call.shape.most_errors(), Refusal::Far)
}

/// All 2^9 words.
pub fn every_word(make: Make, shape: Shape) -> Verdict {
    let codewords = all_codewords(shape);
    let words = all_words(shape);
    for word in &words {
        expect_near(make, &nearest(shape, word), &codewords)?;
    }
    Ok(words.len() as u64)
}

/// Damage of any weight up to 2n, and words of any kind.
pub fn sampled(make: Make, shape: Shape, random: &mut Random) -> Verdict {
    let rounds = 60;
    let codewords = all_codewords(shape);
    for _ in 0..rounds {
        let sent = &codewords[random.below(codewords.len())];
        let mut word = damaged(sent, &any(shape, 2 * shape.n as usize, random));
        if random.one_in(8) {
            word = random.symbols(shape, shape.word_len());
        }
        expect_near(make, &nearest(shape, &word), &codewords)?;
    }
    Ok(rounds)
}
