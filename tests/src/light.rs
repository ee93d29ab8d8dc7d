//! Codewords with few nonzero symbols. Damage that is a part of one cancels on many checks.

use crate::random::Random;
use crate::reference::shape::Shape;
use std::collections::BTreeSet;

/// Row and column.
type Point = (usize, usize);

/// The positions of a light codeword: one symbol at each of them silences every check. There are 2n where the slopes
/// are known to have so light a one (`is_lightest`), else 2n or more.
pub fn light(shape: Shape, random: &mut Random) -> Vec<usize> {
    let q = shape.q as usize;
    let (rows, columns) = (random.below(q), random.below(q));
    let points = if shape.n == shape.q { two_lines(shape) } else { steps(shape) };
    let moved = |(row, column): Point| (row + rows) % q * q + (column + columns) % q;
    points.into_iter().map(moved).collect()
}

/// No codeword but zero is lighter than 2n. With up to three directions, with as many as the order, and with the slopes
/// 0, 1, 2 there is one of 2n.
pub fn is_lightest(shape: Shape) -> bool {
    shape.n <= 3 || shape.n == shape.q || shape.n == 4 && shape.own_slopes() == [0, 1, 2]
}

/// Two lines of the slope that no direction has: each check meets both, each in one position.
fn two_lines(shape: Shape) -> BTreeSet<Point> {
    let q = shape.q as usize;
    let free = (0..q).find(|&slope| !shape.own_slopes().contains(&(slope as u32))).expect("q slopes, q - 1 directions");
    let line = |line: usize| (0..q).map(move |row| (row, (line + (q - free) * row) % q));
    line(0).chain(line(1)).collect()
}

/// One point, then for each direction all of it a step along that direction's lines as well; what is there twice goes.
/// The step along a row is the difference of the first two slopes, so that many meet.
fn steps(shape: Shape) -> BTreeSet<Point> {
    let q = shape.q as usize;
    let slopes: Vec<usize> = shape.own_slopes().iter().map(|&slope| slope as usize).collect();
    let across = slopes.get(1).map_or(1, |second| (second + q - slopes[0]) % q);
    let along = slopes.iter().map(|slope| (1, (q - slope) % q));
    let step = |points: BTreeSet<Point>, (rows, columns): Point| {
        let moved = points.iter().map(|(row, column)| ((row + rows) % q, (column + columns) % q)).collect();
        points.symmetric_difference(&moved).copied().collect()
    };
    [(0, across)].into_iter().chain(along).fold(BTreeSet::from([(0, 0)]), step)
}
