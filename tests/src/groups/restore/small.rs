//! Small shapes: what trying every codeword says.

use super::restore;
use crate::call::{After, Call, Entry, Make};
use crate::damage::{any, damaged, list};
use crate::groups::erasures::cases::{filled, limit, lost, refused, some_circuits, some_places, PLACES, WORD};
use crate::groups::expect::expect;
use crate::random::Random;
use crate::reference::brute::{all_codewords, all_words};
use crate::reference::restorer::reach;
use crate::reference::shape::{Refusal, Shape, STANDARD};
use crate::report::Verdict;

/// What the definition says, over all codewords.
fn by_definition(call: &Call, codewords: &[Vec<u32>]) -> After {
    let (places, word) = (&call.slices[PLACES], &call.slices[WORD]);
    let others: Vec<usize> = (0..word.len()).filter(|j| !places.contains(&(*j as u32))).collect();
    let most = reach(call.shape, places.len());
    let far = |codeword: &Vec<u32>| others.iter().filter(|&&j| codeword[j] != word[j]).nth(most).is_some();
    let mut within = codewords.iter().filter(|codeword| !far(codeword));
    match (within.next(), within.next()) {
        (None, _) => refused(call, Refusal::Far),
        (Some(only), None) => filled(call, only),
        _ => refused(call, Refusal::Ambiguous),
    }
}

/// All 2^9 words with all 2^9 lists; with other slopes than the standard ones one in sixteen.
pub fn every_word(make: Make, shape: Shape, random: &mut Random) -> Verdict {
    let (words, codewords) = (all_words(shape), all_codewords(shape));
    let all = shape.slopes == STANDARD;
    let mut tried = 0;
    for bits in 0..1 << shape.word_len() {
        let places = list((0..shape.word_len()).filter(|j| bits >> j & 1 == 1).collect());
        for word in &words {
            if all || random.one_in(16) {
                let call = Call::new(Entry::Restore, shape, &[&places, word, &vec![7; shape.scratch_len()]]);
                expect(make, &call, &by_definition(&call, &codewords))?;
                tried += 1;
            }
        }
    }
    Ok(tried)
}

/// Lists of any number of places, mostly up to 2n, with damage up to 2n elsewhere, and words of any kind.
pub fn sampled(make: Make, shape: Shape, random: &mut Random) -> Verdict {
    let mut tried = 0;
    let codewords = all_codewords(shape);
    for _ in 0..25 {
        let most = if random.one_in(3) { shape.word_len() } else { limit(shape) + 1 };
        let count = random.below(most.min(shape.word_len()) + 1);
        let mut lists = some_places(shape, count, random).to_vec();
        lists.push(some_circuits(shape, random).swap_remove(0));
        for places in lists {
            let sent = &codewords[random.below(codewords.len())];
            let mut word = damaged(&lost(shape, sent, &places, random), &any(shape, 2 * shape.n as usize, random));
            if random.one_in(8) {
                word = random.symbols(shape, shape.word_len());
            }
            let call = restore(shape, &places, &word, random);
            expect(make, &call, &by_definition(&call, &codewords))?;
            tried += 1;
        }
    }
    Ok(tried)
}
