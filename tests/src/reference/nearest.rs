//! Reading the nearest codeword: any damage to at most n - 1 symbols, whether it cancels on a check or not.
//!
//! It goes bit by bit. The bits of one place in the symbols are a word of width 1, whose checks are that place's bits
//! of the checks. If a codeword differs from the received word in at most n - 1 symbols, so it does in the bits of
//! each place, and there no other does, since codewords are 2n apart. So the wrong bits are found for each place by
//! itself, and put together.

use super::shape::{Refusal, Shape};
use super::square::{checks_on, is_codeword, syndromes, weight, xor};
use std::collections::HashMap;

/// The error of at most n - 1 symbols that leaves a codeword. What the bits propose is accepted by that alone.
pub fn nearest_error(shape: Shape, received: &[u32]) -> Option<Vec<u32>> {
    let values = syndromes(shape, received);
    let mut reader = BitReader::new(shape);
    let mut error = vec![0; received.len()];
    for place in 0..shape.b {
        let odd = values.iter().map(|value| value >> place & 1 == 1).collect();
        reader.wrong(odd)?.iter().for_each(|&j| error[j] |= 1 << place);
    }
    let explains = weight(&error) <= shape.most_errors() && is_codeword(shape, &xor(received, &error));
    explains.then_some(error)
}

/// Finds the wrong bits of words of width 1.
pub struct BitReader {
    shape: Shape,
    /// Those on each check.
    positions: Vec<Vec<usize>>,
    /// What was found before: places of the symbols that show the same have the same wrong bits.
    known: HashMap<Vec<bool>, Option<Vec<usize>>>,
}

impl BitReader {
    pub fn new(shape: Shape) -> BitReader {
        BitReader { shape, positions: positions_on_checks(shape), known: HashMap::new() }
    }

    /// The positions, at most n - 1 of them, whose bits make just these checks odd.
    pub fn wrong(&mut self, odd: Vec<bool>) -> Option<&Vec<usize>> {
        let search = |odd: &Vec<bool>| Bits::new(self.shape, &self.positions, odd).wrong(self.shape.most_errors());
        self.known.entry(odd).or_insert_with_key(search).as_ref()
    }
}

/// The positions on each check.
fn positions_on_checks(shape: Shape) -> Vec<Vec<usize>> {
    let mut positions = vec![vec![]; shape.checks()];
    for j in 0..shape.word_len() {
        checks_on(shape, j).for_each(|check| positions[check].push(j));
    }
    positions
}

/// The search for the wrong bits of one place.
struct Bits<'a> {
    shape: Shape,
    /// Those on each check.
    positions: &'a [Vec<usize>],
    /// The checks that the wrong bits not found yet make odd.
    odd: Vec<bool>,
    /// How many checks of each position are odd.
    shows: Vec<usize>,
    /// The positions that are settled as things stand, right or wrong.
    settled: Vec<bool>,
}

impl<'a> Bits<'a> {
    fn new(shape: Shape, positions: &'a [Vec<usize>], odd: &[bool]) -> Bits<'a> {
        let size = shape.word_len();
        let mut bits =
            Bits { shape, positions, odd: vec![false; odd.len()], shows: vec![0; size], settled: vec![false; size] };
        (0..odd.len()).filter(|&check| odd[check]).for_each(|check| bits.turn(check));
        bits
    }

    fn turn(&mut self, check: usize) {
        self.odd[check] = !self.odd[check];
        for &j in &self.positions[check] {
            if self.odd[check] {
                self.shows[j] += 1;
            } else {
                self.shows[j] -= 1;
            }
        }
    }

    /// The bit at position j changes, and with it all of the checks on j.
    fn flip(&mut self, j: usize) {
        checks_on(self.shape, j).for_each(|check| self.turn(check));
    }

    /// At most so many positions, none of them settled, that make just these checks odd. Each wrong bit is on one line
    /// of every direction: so a direction has no more odd lines than there are wrong bits, and the two numbers are both
    /// even or both odd.
    fn wrong(&mut self, most: usize) -> Option<Vec<usize>> {
        let lines = |direction: &[bool]| direction.iter().filter(|&&odd| odd).count();
        let lines: Vec<usize> = self.odd.chunks(self.shape.q as usize).map(lines).collect();
        if lines.iter().all(|&count| count == 0) {
            return Some(vec![]);
        }
        if lines.iter().any(|&count| count > most) {
            return None;
        }
        self.one_more(most - (most - lines[0]) % 2)
    }

    /// The same, with one wrong bit at least. The likeliest position is wrong, or it is right and out of the question.
    fn one_more(&mut self, most: usize) -> Option<Vec<usize>> {
        let (mut found, mut tried) = (None, vec![]);
        while found.is_none() {
            let Some(j) = self.likeliest(most) else { break };
            self.settled[j] = true;
            tried.push(j);
            self.flip(j);
            found = self.wrong(most - 1).map(|others| [others, vec![j]].concat());
            self.flip(j);
        }
        tried.into_iter().for_each(|j| self.settled[j] = false);
        found
    }

    /// The position with the most odd checks. Two wrong bits share a check at most, so that of a wrong bit's checks at
    /// most as many are even as there are other wrong bits.
    fn likeliest(&self, most: usize) -> Option<usize> {
        let possible = |&j: &usize| !self.settled[j] && self.shows[j] + most > self.shape.n as usize;
        (0..self.shows.len()).filter(possible).max_by_key(|&j| self.shows[j])
    }
}

/// Restores the word and gives the number of symbols changed.
pub fn decode_nearest(shape: Shape, word: &mut [u32]) -> Result<u32, Refusal> {
    shape.judge()?;
    shape.judge_symbols(word, shape.word_len())?;
    let error = nearest_error(shape, word).ok_or(Refusal::Far)?;
    word.copy_from_slice(&xor(word, &error));
    Ok(weight(&error) as u32)
}
