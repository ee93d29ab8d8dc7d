//! The square: which check each symbol is on, codewords, and unmasked ("clean") errors.

use super::shape::Shape;

/// The check of direction t that symbol j is on.
pub fn check(shape: Shape, t: usize, j: usize) -> usize {
    let q = shape.q as usize;
    let (row, column) = (j / q, j % q);
    let line = if t == 0 { row } else { (column + shape.slopes[t - 1] as usize * row) % q };
    t * q + line
}

/// The checks that symbol j is on, one a direction.
pub fn checks_on(shape: Shape, j: usize) -> impl Iterator<Item = usize> {
    (0..shape.n as usize).map(move |t| check(shape, t, j))
}

/// The positions that are on a check, rising.
pub fn positions_on(shape: Shape, number: usize) -> Vec<usize> {
    let t = number / shape.q as usize;
    (0..shape.word_len()).filter(|&j| check(shape, t, j) == number).collect()
}

/// Each check's value.
pub fn syndromes(shape: Shape, word: &[u32]) -> Vec<u32> {
    let mut values = vec![0; shape.checks()];
    for (j, &symbol) in word.iter().enumerate() {
        for check in checks_on(shape, j) {
            values[check] ^= symbol;
        }
    }
    values
}

/// A stored word.
pub fn is_codeword(shape: Shape, word: &[u32]) -> bool {
    word.len() == shape.word_len() && shape.all_fit(word) && syndromes(shape, word).iter().all(|&value| value == 0)
}

/// Clean damage: every check with a nonzero symbol on it has a nonzero value.
pub fn is_unmasked(shape: Shape, error: &[u32]) -> bool {
    let values = syndromes(shape, error);
    let shows = |j: usize| checks_on(shape, j).all(|check| values[check] != 0);
    (0..error.len()).all(|j| error[j] == 0 || shows(j))
}

pub fn weight(error: &[u32]) -> usize {
    error.iter().filter(|&&symbol| symbol != 0).count()
}

pub fn xor(left: &[u32], right: &[u32]) -> Vec<u32> {
    left.iter().zip(right).map(|(x, y)| x ^ y).collect()
}
