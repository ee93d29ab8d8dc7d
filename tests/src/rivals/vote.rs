//! Reading by vote, made fast by hand on the syndromes of the tuned reader: a symbol is passed over as soon as half of its
//! checks are silent, and only the others are put to the vote.

use super::tuned::{Offsets, Syndromes};
use super::{judge, refused};
use crate::reference::shape::{Refusal, Shape};

/// The most symbols that are changed.
const MOST: usize = 4;

/// A change: its row, its column, its line in each direction, and what is XORed on.
#[derive(Clone, Copy)]
struct Change {
    row: usize,
    column: usize,
    lines: [usize; 8],
    value: u32,
}

pub fn decode_majority(shape: Shape, word: &mut [u32]) -> u32 {
    if let Some(refusal) = judge(shape, word) {
        return refused(refusal);
    }
    let (q, n) = (shape.q as usize, shape.n as usize);
    let syndromes = Syndromes::of(q, n, word);
    if syndromes.silent(q, n) {
        return 0;
    }
    correct(q, n, syndromes, word).unwrap_or(refused(Refusal::NoMajority))
}

fn correct(q: usize, n: usize, mut syndromes: Syndromes, word: &mut [u32]) -> Option<u32> {
    let mut changes = [Change { row: 0, column: 0, lines: [0; 8], value: 0 }; MOST];
    let count = locate(q, n, &syndromes, &mut changes)?;
    let changes = &changes[..count];
    for change in changes {
        syndromes.rows[change.row] ^= change.value;
        for t in 1..n {
            syndromes.lines[t][change.lines[t]] ^= change.value;
        }
    }
    if !syndromes.silent(q, n) {
        return None;
    }
    for change in changes {
        word[change.row * q + change.column] ^= change.value;
    }
    Some(count as u32)
}

/// The symbols that the vote changes, or nothing if they are more than n/2.
fn locate(q: usize, n: usize, syndromes: &Syndromes, changes: &mut [Change; MOST]) -> Option<usize> {
    let mut count = 0;
    let mut offsets = Offsets([0; 8]);
    for row in 0..q {
        let own = usize::from(syndromes.rows[row] == 0);
        for column in 0..q {
            if is_quiet(n, syndromes, &offsets, own, column) {
                continue;
            }
            let value = elect(n, syndromes, &offsets, row, column);
            if value != 0 {
                if count == n / 2 {
                    return None;
                }
                let line = |offset: usize| if offset + column >= q { offset + column - q } else { offset + column };
                changes[count] = Change { row, column, lines: offsets.0.map(line), value };
                count += 1;
            }
        }
        offsets.step(q, n);
    }
    Some(count)
}

/// Half of the checks are silent.
fn is_quiet(n: usize, syndromes: &Syndromes, offsets: &Offsets, own: usize, column: usize) -> bool {
    let mut silent = own;
    for t in 1..n {
        silent += usize::from(syndromes.lines[t][offsets.0[t] + column] == 0);
        if 2 * silent >= n {
            return true;
        }
    }
    false
}

/// The nonzero value that more than half of the checks show, or 0.
fn elect(n: usize, syndromes: &Syndromes, offsets: &Offsets, row: usize, column: usize) -> u32 {
    let mut values = [0; 8];
    values[0] = syndromes.rows[row];
    for t in 1..n {
        values[t] = syndromes.lines[t][offsets.0[t] + column];
    }
    let values = &values[..n];
    let most = |value: &u32| *value != 0 && 2 * values.iter().filter(|other| *other == value).count() > n;
    values.iter().copied().find(most).unwrap_or(0)
}
