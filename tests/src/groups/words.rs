//! Reading words with every kind of error, as symbols and, where the slopes are the standard ones, as bytes.

use super::every::{repeated, Widths};
use crate::call::{brief, difference, to_bytes, After, Call, Entry};
use crate::damage::{damaged, make, unmasked, Error, STYLES};
use crate::random::Random;
use crate::reference::brute::all_words;
use crate::reference::shape::{Shape, ORDERS};
use crate::report::{Group, Unit, Verdict};
use crate::shrink::{expect, without_parts, Case};

const WIDTHS: [u32; 7] = [1, 2, 8, 11, 16, 31, 32];

/// The same and another one.
const ONE_MORE: Widths = |q, random| {
    let other = 3 + random.below(28) as u32;
    repeated(&[&WIDTHS[..], &[other]].concat(), rounds(q))
};

pub fn group() -> Group {
    let mut group = Group::new("damaged words", Unit::Words);
    group.test_shapes("(q, n)", ONE_MORE, sweep);
    group.test_shapes("random words of (q, n)", |q, _| repeated(&WIDTHS, rounds(q)), random_words);
    group.test("the shipped shape and its neighbours", shipped);
    group.test_all_words(&[2, 3], |shape, _| every_word(shape));
    group
}

/// Small words are read more often, since they cost less.
fn rounds(q: u32) -> u32 {
    (9_000 / (q * q)).clamp(12, 180)
}

/// A codeword with errors of every kind.
fn sweep(shape: Shape, random: &mut Random) -> Verdict {
    let sent = random.codeword(shape);
    let errors = errors(shape, random);
    let tried = errors.len() as u64;
    for error in errors {
        expect(&Damaged { shape, sent: sent.clone(), error })?;
    }
    Ok(tried)
}

/// Errors of every weight from 0 to n + 2, in every style, and unmasked ones up to n - 1.
fn errors(shape: Shape, random: &mut Random) -> Vec<Error> {
    let mut errors = vec![];
    for weight in 0..=shape.n as usize + 2 {
        errors.extend(STYLES.map(|style| make(style, shape, weight, random)));
        if weight <= shape.most_errors() {
            errors.push(unmasked(shape, weight, random));
        }
    }
    errors
}

/// Words that have nothing to do with a codeword.
fn random_words(shape: Shape, random: &mut Random) -> Verdict {
    let word = random.symbols(shape, shape.word_len());
    expect(&Damaged::by_itself(shape, &word))?;
    Ok(1)
}

/// Order 17 with slopes 0, 1, 2 and four directions, whatever the slopes past the third, and shapes that
/// differ from it in one number: what is read may not depend on where the check numbers come from.
fn shipped(random: &mut Random) -> Verdict {
    const SLOPES: [[u32; 7]; 7] = [
        [0, 1, 2, 3, 4, 5, 6],
        [0, 1, 2, 0, 0, 0, 0],
        [0, 1, 2, u32::MAX, 17, 1, 2],
        [0, 1, 3, 2, 4, 5, 6],
        [0, 2, 1, 3, 4, 5, 6],
        [1, 0, 2, 3, 4, 5, 6],
        [16, 1, 2, 3, 4, 5, 6],
    ];
    let mut tried = 0;
    for (n, slopes) in [3, 4, 5].into_iter().flat_map(|n| SLOPES.map(|slopes| (n, slopes))) {
        for b in WIDTHS {
            let shape = Shape::new(17, n, b).with_slopes(slopes);
            tried += if shape.lawful() { sweep(shape, random)? } else { 0 };
        }
    }
    Ok(tried)
}

/// All 2^9 words.
fn every_word(shape: Shape) -> Verdict {
    let words = all_words(shape);
    for word in &words {
        expect(&Damaged::by_itself(shape, word))?;
    }
    Ok(words.len() as u64)
}

#[derive(Clone)]
struct Damaged {
    shape: Shape,
    sent: Vec<u32>,
    error: Error,
}

impl Damaged {
    /// A word as an error on the zero word.
    fn by_itself(shape: Shape, word: &[u32]) -> Damaged {
        let nonzero = |(j, &symbol): (usize, &u32)| (symbol != 0).then_some((j, symbol));
        let error = word.iter().enumerate().filter_map(nonzero).collect();
        Damaged { shape, sent: vec![0; shape.word_len()], error }
    }

    /// The same error on the zero word of another shape, where its symbols and positions exist there.
    fn moved(&self, shape: Shape) -> Option<Damaged> {
        let (from, to) = (self.shape.q as usize, shape.q as usize);
        let place = |&(j, symbol): &(usize, u32)| {
            let (row, column) = (j / from, j % from);
            (row < to && column < to && shape.fits(symbol)).then_some((row * to + column, symbol))
        };
        let error: Option<Error> = self.error.iter().map(place).collect();
        Some(Damaged { shape, sent: vec![0; shape.word_len()], error: error? })
    }

    /// What the reader of bytes makes of the word, beside what the reader of symbols must.
    fn difference_in_bytes(&self, word: &[u32], in_symbols: &After) -> Option<String> {
        let call = Call::new(Entry::HostReadWord, self.shape, &[&to_bytes(word)]);
        let expected = After { answer: in_symbols.answer, slices: vec![to_bytes(&in_symbols.slices[0])] };
        let found = difference(call.entry, &expected, &call.on_library());
        found.map(|found| format!("as bytes, {found}"))
    }

    /// The standard slopes, a smaller order, fewer directions, a smaller width.
    fn smaller_shapes(&self) -> Vec<Damaged> {
        let Shape { q, n, b, slopes } = self.shape;
        let orders = ORDERS.into_iter().filter(|&order| order < q).map(|order| Shape::new(order, n, b));
        let shapes = orders.chain([Shape::new(q, n - 1, b), Shape::new(q, n, 1), Shape::new(q, n, b - 1)]);
        let shapes = shapes.map(|shape| shape.with_slopes(slopes));
        let shapes = [self.shape.standard()].into_iter().chain(shapes);
        shapes.filter(|shape| shape.lawful() && *shape != self.shape).filter_map(|shape| self.moved(shape)).collect()
    }

    /// One symbol of the error replaced by 1, or by half of itself.
    fn smaller_symbols(&self) -> Vec<Damaged> {
        let mut smaller = vec![];
        for i in 0..self.error.len() {
            let symbol = self.error[i].1;
            for less in [1, symbol / 2].into_iter().filter(|&less| 0 < less && less < symbol) {
                let mut case = self.clone();
                case.error[i].1 = less;
                smaller.push(case);
            }
        }
        smaller
    }
}

impl Case for Damaged {
    fn difference(&self) -> Option<String> {
        let word = damaged(&self.sent, &self.error);
        let call = Call::new(Entry::Decode, self.shape, &[&word]);
        let expected = call.on_reference();
        let found = difference(call.entry, &expected, &call.on_library());
        let also_in_bytes = self.shape == self.shape.standard();
        found.or_else(|| also_in_bytes.then(|| self.difference_in_bytes(&word, &expected)).flatten())
    }

    fn smaller(&self) -> impl Iterator<Item = Damaged> {
        let nonzero = self.sent.iter().any(|&symbol| symbol != 0);
        let zero_word = nonzero.then(|| Damaged { sent: vec![0; self.sent.len()], ..self.clone() });
        let lighter = without_parts(&self.error).map(|error| Damaged { error, ..self.clone() });
        zero_word.into_iter().chain(lighter).chain(self.smaller_shapes()).chain(self.smaller_symbols())
    }

    fn describe(&self) -> String {
        let damage: Vec<String> = self.error.iter().map(|(j, symbol)| format!("{symbol} on symbol {j}")).collect();
        format!("{:?}, codeword {}, error {}", self.shape, brief(&self.sent), damage.join(", "))
    }
}
