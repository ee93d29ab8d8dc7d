//! How many checks of each symbol decoding looks at. What must come is said here by counting on each symbol's
//! own checks, their values made from the definition, not asked of the reference, which is held to it too.

use super::every::{repeated, Shapes, Widths};
use super::expect::expect;
use crate::call::{After, Call, Entry, Make};
use crate::damage::{damaged, make as make_error, unmasked, Error, STYLES};
use crate::random::Random;
use crate::reference::brute::all_words;
use crate::reference::reader::error_of;
use crate::reference::shape::Shape;
use crate::reference::square::check;
use crate::report::{Group, Unit, Verdict};

/// Each some times, with small words more often, since they cost less.
const WIDTHS: Widths = |q, _| repeated(&[1, 8, 11, 32], (900 / (q * q)).clamp(3, 20));

/// The group for whichever makes the calls.
pub fn group(name: String, make: Make) -> Group {
    let mut group = Group::new(name, Unit::Calls);
    let mut shapes = Shapes::new(&mut group, make, WIDTHS);
    shapes.test("codewords, (q, n)", codewords);
    shapes.test("damaged words, (q, n)", damaged_words);
    shapes.test("random words, (q, n)", random_words);
    group.test_all_words(&[2, 3], move |shape, random| every_word(make, shape, random));
    group
}

/// Each check's value, one symbol of the word after another: that of line L of direction t at t, L.
fn values(shape: Shape, word: &[u32]) -> Vec<Vec<u32>> {
    let q = shape.q as usize;
    let mut values = vec![vec![0; q]; shape.n as usize];
    for (t, lines) in values.iter_mut().enumerate() {
        word.iter().enumerate().for_each(|(j, symbol)| lines[check(shape, t, j) - t * q] ^= symbol);
    }
    values
}

/// The values on the checks of symbol j, in rising direction.
fn on_symbol(shape: Shape, values: &[Vec<u32>], j: usize) -> Vec<u32> {
    let q = shape.q as usize;
    values.iter().enumerate().map(|(t, lines)| lines[check(shape, t, j) - t * q]).collect()
}

/// Each looked at, up to the first silent one or the last.
fn number(shown: &[u32]) -> u32 {
    let mut looked = 0;
    for &value in shown {
        looked += 1;
        if value == 0 {
            break;
        }
    }
    looked
}

fn expect_list(make: Make, shape: Shape, word: &[u32], list: Vec<u32>, random: &mut Random) -> Result<(), String> {
    let call = Call::new(Entry::Looked, shape, &[word, &random.numbers(word.len())]);
    expect(make, &call, &After { answer: 0, slices: vec![word.to_vec(), list] })
}

/// The numbers of a word, and that its error stands exactly where all checks were looked at and the last is
/// not silent either; a symbol with a silent check is none of it.
fn expect_word(make: Make, shape: Shape, word: &[u32], random: &mut Random) -> Result<(), String> {
    let values = values(shape, word);
    let shown: Vec<Vec<u32>> = (0..word.len()).map(|j| on_symbol(shape, &values, j)).collect();
    let list: Vec<u32> = shown.iter().map(|shown| number(shown)).collect();
    if let Some(error) = error_of(shape, word) {
        let located = |j: usize| list[j] == shape.n && shown[j].last() != Some(&0);
        if let Some(j) = (0..word.len()).find(|&j| located(j) != (error[j] != 0)) {
            return Err(format!("{shape:?}: the number {} of symbol {j} does not fit its error", list[j]));
        }
    }
    expect_list(make, shape, word, list, random)
}

/// Of a codeword one check a symbol.
fn codewords(make: Make, shape: Shape, random: &mut Random) -> Verdict {
    let word = random.codeword(shape);
    expect_list(make, shape, &word, vec![1; word.len()], random)?;
    Ok(1)
}

/// Errors of a few weights up to n + 1, in every style, and an unmasked one.
fn damaged_words(make: Make, shape: Shape, random: &mut Random) -> Verdict {
    let sent = random.codeword(shape);
    let weight = 1 + random.below(shape.n as usize + 1);
    let mut errors: Vec<Error> = STYLES.iter().map(|&style| make_error(style, shape, weight, random)).collect();
    errors.push(unmasked(shape, 1 + random.below(shape.most_errors()), random));
    for error in &errors {
        expect_word(make, shape, &damaged(&sent, error), random)?;
    }
    Ok(errors.len() as u64)
}

/// Words that have nothing to do with a codeword; among them some with few nonzero symbols.
fn random_words(make: Make, shape: Shape, random: &mut Random) -> Verdict {
    expect_word(make, shape, &random.symbols(shape, shape.word_len()), random)?;
    let mut sparse = vec![0; shape.word_len()];
    for _ in 0..1 + random.below(2 * shape.q as usize) {
        let j = random.below(sparse.len());
        sparse[j] = random.symbol(shape);
    }
    expect_word(make, shape, &sparse, random)?;
    Ok(2)
}

/// All 2^9 words.
fn every_word(make: Make, shape: Shape, random: &mut Random) -> Verdict {
    let words = all_words(shape);
    for word in &words {
        expect_word(make, shape, word, random)?;
    }
    Ok(words.len() as u64)
}
