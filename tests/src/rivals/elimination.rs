//! Dead cells as one would write it down first: a row for each check, N columns of bits with the check's
//! value beside them, brought to reduced form one listed column after the other.

use super::straightforward::check;
use super::{judge_filling, refused};
use crate::reference::shape::{Refusal, Shape};

/// As many as hold 961 columns.
const WORDS: usize = 16;

#[derive(Clone, Copy, Default)]
struct Row {
    bits: [u64; WORDS],
    value: u32,
}

impl Row {
    fn set(&mut self, column: usize) {
        self.bits[column / 64] |= 1 << (column % 64);
    }

    fn has(&self, column: usize) -> bool {
        self.bits[column / 64] >> (column % 64) & 1 == 1
    }

    fn add(&mut self, other: &Row) {
        for (word, more) in self.bits.iter_mut().zip(other.bits) {
            *word ^= more;
        }
        self.value ^= other.value;
    }
}

pub fn fill(shape: Shape, places: &[u32], word: &mut [u32], scratch: &mut [u32]) -> u32 {
    if let Some(refusal) = judge_filling(shape, places, word, scratch) {
        return refused(refusal);
    }
    let mut rows = rows(shape, places, word);
    let rank = eliminate(&mut rows, places);
    if rows[rank..].iter().any(|row| row.value != 0) {
        return refused(Refusal::Unfillable);
    }
    if rank < places.len() {
        return refused(Refusal::Ambiguous);
    }
    let mut changed = 0;
    for (row, &place) in rows.iter().zip(places) {
        word[place as usize] ^= row.value;
        changed += u32::from(row.value != 0);
    }
    changed
}

/// The unknowns are the changes at the places, the right-hand sides the check values of the word as it came.
fn rows(shape: Shape, places: &[u32], word: &[u32]) -> Vec<Row> {
    let (q, n) = (shape.q as usize, shape.n as usize);
    let mut rows = vec![Row::default(); n * q];
    for (j, &symbol) in word.iter().enumerate() {
        for t in 0..n {
            rows[check(q, t, j)].value ^= symbol;
        }
    }
    for &place in places {
        for t in 0..n {
            rows[check(q, t, place as usize)].set(place as usize);
        }
    }
    rows
}

/// Gives the number of pivots, which then stand in the first rows in the order of their columns.
fn eliminate(rows: &mut [Row], places: &[u32]) -> usize {
    let mut rank = 0;
    for column in places.iter().map(|&place| place as usize) {
        let Some(found) = (rank..rows.len()).find(|&i| rows[i].has(column)) else {
            continue;
        };
        rows.swap(rank, found);
        let pivot = rows[rank];
        for (i, row) in rows.iter_mut().enumerate() {
            if i != rank && row.has(column) {
                row.add(&pivot);
            }
        }
        rank += 1;
    }
    rank
}
