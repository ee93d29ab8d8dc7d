//! Reading and filling in straight over the definition, by trying everything; only for small shapes.

use super::shape::Shape;
use super::square::{is_codeword, is_unmasked, weight, xor};
use super::writer::codeword;

/// A codeword, and how many of its symbols a permitted error changed.
pub type Explanation = (Vec<u32>, usize);

/// Every list of N symbols below 2^b.
pub fn all_words(shape: Shape) -> Vec<Vec<u32>> {
    all_lists(shape, shape.word_len())
}

/// Every list of so many symbols below 2^b.
fn all_lists(shape: Shape, length: usize) -> Vec<Vec<u32>> {
    let mut lists = vec![vec![]];
    for _ in 0..length {
        let longer = |list: &Vec<u32>| {
            let list = list.clone();
            (0..=shape.largest()).map(move |symbol| [list.as_slice(), &[symbol]].concat())
        };
        lists = lists.iter().flat_map(longer).collect();
    }
    lists
}

/// Every codeword, one for each K information symbols.
pub fn all_codewords(shape: Shape) -> Vec<Vec<u32>> {
    all_lists(shape, shape.data_len()).iter().map(|data| codeword(shape, data)).collect()
}

/// Those of the codewords that are the received word at every position that is not listed.
pub fn agreeing<'a>(codewords: &'a [Vec<u32>], received: &[u32], places: &[u32]) -> Vec<&'a Vec<u32>> {
    let listed = |j: usize| places.contains(&(j as u32));
    let agrees = |codeword: &&Vec<u32>| (0..received.len()).all(|j| codeword[j] == received[j] || listed(j));
    codewords.iter().filter(agrees).collect()
}

/// Those of the codewords that differ from the received word in at most so many symbols, and in how many.
pub fn within(codewords: &[Vec<u32>], received: &[u32], most: usize) -> Vec<Explanation> {
    let beside = |codeword: &Vec<u32>| (codeword.clone(), weight(&xor(codeword, received)));
    codewords.iter().map(beside).filter(|(_, differ)| *differ <= most).collect()
}

/// All codewords met with all permitted errors: each received word beside its explanation.
pub fn all_explained(shape: Shape) -> Vec<(Vec<u32>, Explanation)> {
    let words = all_words(shape);
    let permitted = |error: &&Vec<u32>| is_unmasked(shape, error) && weight(error) <= shape.most_errors();
    let errors: Vec<&Vec<u32>> = words.iter().filter(permitted).collect();
    let mut explained = vec![];
    for codeword in words.iter().filter(|word| is_codeword(shape, word)) {
        let met = |error: &&Vec<u32>| (xor(codeword, error), (codeword.clone(), weight(error)));
        explained.extend(errors.iter().map(met));
    }
    explained
}

/// All explanations of one received word, over every error of permitted weight.
pub fn explanations(shape: Shape, received: &[u32]) -> Vec<Explanation> {
    let by_unmasked = |(codeword, _): &Explanation| is_unmasked(shape, &xor(received, codeword));
    nearby(shape, received).into_iter().filter(by_unmasked).collect()
}

/// All codewords that differ from the received word in at most n - 1 symbols, over every error of such weight.
pub fn nearby(shape: Shape, received: &[u32]) -> Vec<Explanation> {
    let mut found = vec![];
    let mut error = vec![0; shape.word_len()];
    extend(shape, received, &mut error, 0, &mut found);
    found
}

/// Tries the error as it stands, then with one more symbol from position `from` on.
fn extend(shape: Shape, received: &[u32], error: &mut [u32], from: usize, found: &mut Vec<Explanation>) {
    let word = xor(received, error);
    if is_codeword(shape, &word) {
        found.push((word, weight(error)));
    }
    if weight(error) == shape.most_errors() {
        return;
    }
    for j in from..error.len() {
        for symbol in 1..=shape.largest() {
            error[j] = symbol;
            extend(shape, received, error, j + 1, found);
        }
        error[j] = 0;
    }
}
