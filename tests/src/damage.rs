//! Errors to put on codewords: some that are easy to tell, and some that mislead a careless reader.

use crate::random::Random;
use crate::reference::session::{CLEAN, TWO, VOTE};
use crate::reference::shape::Shape;
use crate::reference::square::{check, is_unmasked, positions_on};

/// Positions, all different, with the nonzero symbols to XOR on.
pub type Error = Vec<(usize, u32)>;

#[derive(Clone, Copy, Debug)]
pub enum Style {
    /// Any positions, any symbols.
    Spread,
    /// Any positions, one symbol, as a failing stripe of memory gives.
    Equal,
    /// As many as possible on one check, so that a check shows the sum of several.
    Line,
    /// Two equal symbols on one check, which then stays silent.
    Masked,
    /// On the checks of one position that is not damaged itself.
    Phantom,
}

pub const STYLES: [Style; 5] = [Style::Spread, Style::Equal, Style::Line, Style::Masked, Style::Phantom];

pub fn make(style: Style, shape: Shape, weight: usize, random: &mut Random) -> Error {
    let chosen = match style {
        Style::Spread | Style::Equal => vec![],
        Style::Line => on_one_check(shape, weight, random),
        Style::Masked => on_one_check(shape, weight.min(2), random),
        Style::Phantom => around_a_position(shape, weight, random),
    };
    let positions = random.more_positions(chosen, weight, shape.word_len());
    let mut error: Error = positions.into_iter().map(|j| (j, random.nonzero_symbol(shape))).collect();
    match style {
        Style::Equal => equalize(&mut error),
        Style::Masked => equalize(&mut error[..weight.min(2)]),
        _ => {}
    }
    error
}

/// An unmasked error, which reading must undo for weights up to n - 1.
pub fn unmasked(shape: Shape, weight: usize, random: &mut Random) -> Error {
    for _ in 0..100 {
        let style = random.pick(&[Style::Spread, Style::Line, Style::Phantom]);
        let error = make(style, shape, weight, random);
        if is_unmasked(shape, &spelled_out(shape, &error)) {
            return error;
        }
    }
    crossing_no_check_twice(shape, weight, random)
}

/// An error that this way of reading must undo, with a shape that it can be used with.
pub fn allowed(way: u32, shape: Shape, random: &mut Random) -> Error {
    match way {
        CLEAN => {
            let weight = random.below(shape.n as usize);
            unmasked(shape, weight, random)
        }
        VOTE => any(shape, shape.most_votes(), random),
        TWO => any(shape, 2, random),
        _ => panic!("{way} is no way of reading"),
    }
}

/// An error of any style that has at most so many symbols.
pub fn any(shape: Shape, most: usize, random: &mut Random) -> Error {
    let weight = random.below(most + 1);
    make(random.pick(&STYLES), shape, weight, random)
}

/// So many symbols of one check, all changed alike, as a failing stripe of memory gives.
pub fn stripe(shape: Shape, weight: usize, random: &mut Random) -> Error {
    let mut error = make(Style::Line, shape, weight, random);
    equalize(&mut error);
    error
}

pub fn apply(error: &[(usize, u32)], word: &mut [u32]) {
    error.iter().for_each(|&(j, symbol)| word[j] ^= symbol);
}

/// The word with the error on it.
pub fn damaged(word: &[u32], error: &[(usize, u32)]) -> Vec<u32> {
    let mut word = word.to_vec();
    apply(error, &mut word);
    word
}

/// Positions as a list of dead cells, which rises.
pub fn list(mut positions: Vec<usize>) -> Vec<u32> {
    positions.sort_unstable();
    positions.into_iter().map(|j| j as u32).collect()
}

/// The error as a list of N symbols.
pub fn spelled_out(shape: Shape, error: &Error) -> Vec<u32> {
    damaged(&vec![0; shape.word_len()], error)
}

/// The positions on any line of direction t.
pub fn any_line(shape: Shape, t: usize, random: &mut Random) -> Vec<usize> {
    let q = shape.q as usize;
    positions_on(shape, t * q + random.below(q))
}

fn equalize(error: &mut [(usize, u32)]) {
    if let Some(&(_, first)) = error.first() {
        error.iter_mut().for_each(|(_, symbol)| *symbol = first);
    }
}

/// Up to `count` positions of a random check.
fn on_one_check(shape: Shape, count: usize, random: &mut Random) -> Vec<usize> {
    let mut positions = positions_on(shape, random.below(shape.checks()));
    random.shuffle(&mut positions);
    positions.truncate(count);
    positions
}

/// Up to `count` positions, one on each check of a position that is left out.
fn around_a_position(shape: Shape, count: usize, random: &mut Random) -> Vec<usize> {
    let centre = random.below(shape.word_len());
    let neighbour = |t: usize| loop {
        let j = random.below(shape.word_len());
        if j != centre && check(shape, t, j) == check(shape, t, centre) {
            return j;
        }
    };
    (0..count.min(shape.n as usize)).map(neighbour).collect()
}

/// Up to `weight` positions on a line whose slope is no direction's, so that no two share a check.
/// There is such a slope: q of them are below q, and at most q - 1 are taken.
fn crossing_no_check_twice(shape: Shape, weight: usize, random: &mut Random) -> Error {
    let q = shape.q as usize;
    let free: Vec<usize> = (0..q).filter(|&slope| !shape.own_slopes().contains(&(slope as u32))).collect();
    let slope = random.pick(&free);
    let line = random.below(q);
    let on_line = |row: usize| row * q + (line + (q - slope) * row) % q;
    let rows = random.positions(weight, q);
    rows.into_iter().map(|row| (on_line(row), random.nonzero_symbol(shape))).collect()
}
