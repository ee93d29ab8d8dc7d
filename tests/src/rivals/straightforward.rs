//! The code as one would write it down first: a remainder for each symbol and direction, and a writer
//! that looks up in a table, made beforehand, which information symbols make each parity symbol.

use super::{judge, judge_writing, refused, MAX_CHECKS, MAX_ERRORS};
use crate::reference::elimination::Positions;
use crate::reference::shape::{Refusal, Shape};

pub(super) fn check(q: usize, t: usize, j: usize) -> usize {
    let (row, column) = (j / q, j % q);
    t * q + if t == 0 { row } else { (column + (t - 1) * row) % q }
}

pub fn decode(shape: Shape, word: &mut [u32]) -> u32 {
    if let Some(refusal) = judge(shape, word) {
        return refused(refusal);
    }
    let (q, n) = (shape.q as usize, shape.n as usize);
    let mut syndromes = [0; MAX_CHECKS];
    for (j, &symbol) in word.iter().enumerate() {
        for t in 0..n {
            syndromes[check(q, t, j)] ^= symbol;
        }
    }
    if syndromes.iter().all(|&value| value == 0) {
        return 0;
    }
    correct(q, n, syndromes, word).unwrap_or(refused(Refusal::Uncorrectable))
}

/// The same of bytes, four a symbol, low byte first.
pub fn read_word(q: u32, n: u32, b: u32, bytes: &mut [u8]) -> u32 {
    if bytes.len() % 4 != 0 {
        return refused(Refusal::Length);
    }
    let symbol = |four: &[u8]| four.iter().rev().fold(0, |symbol, &byte| symbol << 8 | u32::from(byte));
    let mut word: Vec<u32> = bytes.chunks_exact(4).map(symbol).collect();
    let answer = decode(Shape::new(q, n, b), &mut word);
    for (four, symbol) in bytes.chunks_exact_mut(4).zip(word) {
        four.copy_from_slice(&symbol.to_le_bytes());
    }
    answer
}

/// Changes the located symbols if that makes every check silent.
fn correct(q: usize, n: usize, mut syndromes: [u32; MAX_CHECKS], word: &mut [u32]) -> Option<u32> {
    let mut located = [0; MAX_ERRORS];
    let mut count = 0;
    for j in 0..word.len() {
        if (0..n).all(|t| syndromes[check(q, t, j)] != 0) {
            if count == n - 1 {
                return None;
            }
            located[count] = j;
            count += 1;
        }
    }
    let located = &located[..count];
    let mut values = [0; MAX_ERRORS];
    for (value, &j) in values.iter_mut().zip(located) {
        let alone = |&t: &usize| located.iter().all(|&i| i == j || check(q, t, i) != check(q, t, j));
        *value = syndromes[check(q, (0..n).find(alone)?, j)];
    }
    for (&j, value) in located.iter().zip(values) {
        (0..n).for_each(|t| syndromes[check(q, t, j)] ^= value);
    }
    if syndromes.iter().any(|&value| value != 0) {
        return None;
    }
    for (&j, value) in located.iter().zip(values) {
        word[j] ^= value;
    }
    Some(count as u32)
}

/// The table for one shape.
pub struct Writer {
    shape: Shape,
    information: Vec<usize>,
    /// Each parity position with the indices of the information symbols that make it.
    parity: Vec<(usize, Vec<usize>)>,
}

impl Writer {
    pub fn new(shape: Shape) -> Writer {
        let positions = Positions::of(shape);
        let makers = |&parity: &usize| {
            let takes_part = |&k: &usize| positions.sums[k].contains(&parity);
            (parity, (0..positions.sums.len()).filter(takes_part).collect())
        };
        Writer {
            shape,
            information: positions.information.clone(),
            parity: positions.parity.iter().map(makers).collect(),
        }
    }

    pub fn encode(&self, data: &[u32], scratch: &mut [u32], word: &mut [u32]) -> u32 {
        if let Some(refusal) = judge_writing(self.shape, data, scratch, word) {
            return refused(refusal);
        }
        for (&symbol, &j) in data.iter().zip(&self.information) {
            word[j] = symbol;
        }
        for (j, makers) in &self.parity {
            word[*j] = makers.iter().fold(0, |sum, &k| sum ^ data[k]);
        }
        0
    }

    /// The symbols on the information positions.
    pub fn extract(&self, word: &[u32], data: &mut [u32]) {
        for (symbol, &j) in data.iter_mut().zip(&self.information) {
            *symbol = word[j];
        }
    }
}
