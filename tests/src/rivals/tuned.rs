//! The code made fast by hand: each row is XORed onto a direction's checks as one run, rotated by an
//! offset that is carried along, with no remainder; the writer interpolates instead of eliminating.

use super::{judge, judge_writing, refused, MAX_ERRORS};
use crate::reference::shape::{Refusal, Shape};

const MAX_ORDER: usize = 31;

/// A direction's checks twice over, so that a rotated row is one run.
type Lines = [u32; 2 * MAX_ORDER];

/// The syndromes; those of direction 0 stand in `rows`, the others from index 1 on in `lines`.
pub(super) struct Syndromes {
    pub(super) rows: [u32; MAX_ORDER],
    pub(super) lines: [Lines; 8],
}

/// Each direction's rotation of one row, (t - 1) × row mod q.
#[derive(Clone, Copy)]
pub(super) struct Offsets(pub(super) [usize; 8]);

impl Offsets {
    /// From one row to the next.
    pub(super) fn step(&mut self, q: usize, n: usize) {
        for t in 2..n {
            let next = self.0[t] + t - 1;
            self.0[t] = if next >= q { next - q } else { next };
        }
    }
}

fn xor_onto(sums: &mut [u32], row: &[u32]) {
    for (sum, symbol) in sums.iter_mut().zip(row) {
        *sum ^= symbol;
    }
}

impl Syndromes {
    pub(super) fn of(q: usize, n: usize, word: &[u32]) -> Syndromes {
        let mut found = Syndromes { rows: [0; MAX_ORDER], lines: [[0; 2 * MAX_ORDER]; 8] };
        let mut offsets = Offsets([0; 8]);
        for (sum, row) in found.rows.iter_mut().zip(word.chunks_exact(q)) {
            *sum = row.iter().fold(0, |sum, symbol| sum ^ symbol);
            for (lines, &offset) in found.lines[..n].iter_mut().zip(&offsets.0).skip(1) {
                xor_onto(&mut lines[offset..offset + q], row);
            }
            offsets.step(q, n);
        }
        for lines in &mut found.lines[1..n] {
            let (low, high) = lines[..2 * q].split_at_mut(q);
            xor_onto(low, high);
            high.copy_from_slice(low);
        }
        found
    }

    pub(super) fn silent(&self, q: usize, n: usize) -> bool {
        let silent = |values: &[u32]| values[..q].iter().fold(0, |all, value| all | value) == 0;
        silent(&self.rows) && self.lines[1..n].iter().all(|lines| silent(lines))
    }
}

/// A located symbol: its row, its column, and its line in each direction.
#[derive(Clone, Copy)]
struct Located {
    row: usize,
    column: usize,
    lines: [usize; 8],
}

pub fn decode(shape: Shape, word: &mut [u32]) -> u32 {
    if let Some(refusal) = judge(shape, word) {
        return refused(refusal);
    }
    let (q, n) = (shape.q as usize, shape.n as usize);
    let syndromes = Syndromes::of(q, n, word);
    if syndromes.silent(q, n) {
        return 0;
    }
    correct(q, n, syndromes, word).unwrap_or(refused(Refusal::Uncorrectable))
}

fn correct(q: usize, n: usize, mut syndromes: Syndromes, word: &mut [u32]) -> Option<u32> {
    let mut located = [Located { row: 0, column: 0, lines: [0; 8] }; MAX_ERRORS];
    let count = locate(q, n, &syndromes, &mut located)?;
    let located = &located[..count];
    let mut values = [0; MAX_ERRORS];
    for (value, at) in values.iter_mut().zip(located) {
        *value = value_at(n, &syndromes, located, at)?;
    }
    for (at, value) in located.iter().zip(values) {
        syndromes.rows[at.row] ^= value;
        for t in 1..n {
            syndromes.lines[t][at.lines[t]] ^= value;
        }
    }
    if !syndromes.silent(q, n) {
        return None;
    }
    for (at, value) in located.iter().zip(values) {
        word[at.row * q + at.column] ^= value;
    }
    Some(count as u32)
}

/// The symbols with no silent check, or nothing if they are n or more.
fn locate(q: usize, n: usize, syndromes: &Syndromes, located: &mut [Located; MAX_ERRORS]) -> Option<usize> {
    let mut count = 0;
    let mut offsets = Offsets([0; 8]);
    for row in 0..q {
        if syndromes.rows[row] != 0 {
            for column in 0..q {
                if (1..n).all(|t| syndromes.lines[t][offsets.0[t] + column] != 0) {
                    if count == n - 1 {
                        return None;
                    }
                    let line = |offset: usize| if offset + column >= q { offset + column - q } else { offset + column };
                    located[count] = Located { row, column, lines: offsets.0.map(line) };
                    count += 1;
                }
            }
        }
        offsets.step(q, n);
    }
    Some(count)
}

/// What a check shows that holds no other located symbol.
fn value_at(n: usize, syndromes: &Syndromes, located: &[Located], at: &Located) -> Option<u32> {
    let holders = |same: &dyn Fn(&Located) -> bool| located.iter().filter(|other| same(other)).count();
    if holders(&|other| other.row == at.row) == 1 {
        return Some(syndromes.rows[at.row]);
    }
    let t = (1..n).find(|&t| holders(&|other| other.lines[t] == at.lines[t]) == 1)?;
    Some(syndromes.lines[t][at.lines[t]])
}

/// Information symbols stand from row n - 1 and column 1 on.
pub fn extract(shape: Shape, word: &[u32], data: &mut [u32]) {
    let q = shape.q as usize;
    let rows = word.chunks_exact(q).skip(shape.most_errors());
    for (symbols, row) in data.chunks_exact_mut(q - 1).zip(rows) {
        symbols.copy_from_slice(&row[1..]);
    }
}

pub fn encode(shape: Shape, data: &[u32], scratch: &mut [u32], word: &mut [u32]) -> u32 {
    if let Some(refusal) = judge_writing(shape, data, scratch, word) {
        return refused(refusal);
    }
    let (q, m) = (shape.q as usize, shape.most_errors());
    for (row, symbols) in word.chunks_exact_mut(q).skip(m).zip(data.chunks_exact(q - 1)) {
        row[0] = symbols.iter().fold(0, |sum, symbol| sum ^ symbol);
        row[1..].copy_from_slice(symbols);
    }
    let (upper, lower) = word.split_at_mut(m * q);
    partial_syndromes(q, m, lower, upper);
    interpolate(q, m, upper);
    0
}

/// Row t of `upper` becomes what rows m and later give to direction t + 1.
fn partial_syndromes(q: usize, m: usize, lower: &[u32], upper: &mut [u32]) {
    for (slope, sums) in upper.chunks_exact_mut(q).enumerate() {
        let mut lines: Lines = [0; 2 * MAX_ORDER];
        let mut offset = slope * m % q;
        for row in lower.chunks_exact(q) {
            xor_onto(&mut lines[offset..offset + q], row);
            offset = if offset + slope >= q { offset + slope - q } else { offset + slope };
        }
        let (low, high) = lines[..2 * q].split_at(q);
        sums.copy_from_slice(low);
        xor_onto(sums, high);
    }
}

/// From the sums h_t of m rows in directions of slope t to the rows: Newton's divided differences
/// over functions on the cycle of q, where the points are the rotations by -t.
fn interpolate(q: usize, m: usize, rows: &mut [u32]) {
    for k in 0..m {
        let (known, later) = rows.split_at_mut((k + 1) * q);
        for (i, row) in later.chunks_exact_mut(q).enumerate() {
            divide(q, k, i + 1, &known[k * q..], row);
        }
    }
    for k in (0..m).rev() {
        for r in k..m - 1 {
            let (row, next) = rows[r * q..(r + 2) * q].split_at_mut(q);
            // By -k: entry c takes entry c - k.
            xor_onto(&mut row[k..], &next[..q - k]);
            xor_onto(&mut row[..k], &next[q - k..]);
        }
    }
}

/// Replaces h by the g of zero sum with g(c - k - step) XOR g(c - k) = h(c) XOR base(c).
fn divide(q: usize, k: usize, step: usize, base: &[u32], h: &mut [u32]) {
    let mut g = [0; MAX_ORDER];
    let (mut at, mut value, mut total) = (0, 0, 0);
    for _ in 0..q {
        g[at] = value;
        total ^= value;
        let c = if at + k >= q { at + k - q } else { at + k };
        value ^= h[c] ^ base[c];
        at = if at >= step { at - step } else { at + q - step };
    }
    for (entry, value) in h.iter_mut().zip(g) {
        *entry = value ^ total;
    }
}
