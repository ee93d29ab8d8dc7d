//! Calls with places that are named as gone, what must come of them, and ways to choose the places.

use crate::call::{After, Call, Entry, Make};
use crate::damage::list;
use crate::groups::calls::turned_down;
use crate::groups::expect::expect;
use crate::random::Random;
use crate::reference::elimination::Basis;
use crate::reference::shape::{Refusal, Shape};
use crate::reference::square::check;

/// Which slice of a call is which.
pub const PLACES: usize = 0;
pub const WORD: usize = 1;
pub const SCRATCH: usize = 2;

/// With so many places 14 never comes: any two codewords differ in more, at 2n places or above.
pub fn limit(shape: Shape) -> usize {
    2 * shape.n as usize - 1
}

/// A call of filling in or of restoring. The scratch is full of old numbers.
pub fn with_places(entry: Entry, shape: Shape, places: &[u32], word: &[u32], random: &mut Random) -> Call {
    Call::new(entry, shape, &[places, word, &random.numbers(shape.scratch_len())])
}

pub fn fill(shape: Shape, places: &[u32], word: &[u32], random: &mut Random) -> Call {
    with_places(Entry::Fill, shape, places, word, random)
}

/// The word is left as this one; the answer is how many of its symbols came otherwise.
pub fn filled(call: &Call, word: &[u32]) -> After {
    let mut slices = call.slices.clone();
    let changed = slices[WORD].iter().zip(word).filter(|(came, is)| came != is).count();
    slices[WORD] = word.to_vec();
    slices[SCRATCH].fill(0);
    After { answer: changed as u64, slices }
}

/// List and word are as lent, and so is the scratch after 1, 18 and 2.
pub fn refused(call: &Call, refusal: Refusal) -> After {
    let mut after = turned_down(call, refusal);
    if !matches!(refusal, Refusal::Shape | Refusal::Slope | Refusal::Length) {
        after.slices[SCRATCH].fill(0);
    }
    after
}

/// The sent word agrees, so it is filled in or 14; which of the two, the reference says.
pub fn expect_sent(make: Make, call: &Call, sent: &[u32]) -> Result<(), String> {
    let expected = call.on_reference();
    if expected != filled(call, sent) && expected != refused(call, Refusal::Ambiguous) {
        return Err(format!("{}: neither filled in nor 14", call.text()));
    }
    expect(make, call, &expected)
}

/// The word with anything at the places: what is right, one number, wrong ones, any.
pub fn lost(shape: Shape, sent: &[u32], places: &[u32], random: &mut Random) -> Vec<u32> {
    let mut word = sent.to_vec();
    let (way, same) = (random.below(6), wrong(shape, random));
    for &place in places {
        let symbol = &mut word[place as usize];
        *symbol = match way {
            0 => *symbol,
            1 => random.pick(&[0, shape.largest()]),
            2 => *symbol ^ same,
            3 | 4 => *symbol ^ wrong(shape, random),
            _ if random.one_in(2) => random.symbol(shape),
            _ => *symbol,
        };
    }
    word
}

/// The word with nonzero damage at these positions.
pub fn damaged(shape: Shape, mut word: Vec<u32>, at: &[usize], random: &mut Random) -> Vec<u32> {
    at.iter().for_each(|&j| word[j] ^= wrong(shape, random));
    word
}

/// What makes a symbol a wrong one: any number but zero, often a single bit.
fn wrong(shape: Shape, random: &mut Random) -> u32 {
    let any = random.nonzero_symbol(shape);
    random.pick(&[any, any, 1, 1 << (shape.b - 1)])
}

pub fn shuffled(shape: Shape, random: &mut Random) -> Vec<usize> {
    let mut positions: Vec<usize> = (0..shape.word_len()).collect();
    random.shuffle(&mut positions);
    positions
}

/// The first ones, as a list.
pub fn first(mut positions: Vec<usize>, count: usize) -> Vec<u32> {
    positions.truncate(count);
    list(positions)
}

/// The crossings of some rows with as many lines of direction 1, both evenly spaced, in any order: few
/// checks with many of them on each.
fn crowd(shape: Shape, count: usize, random: &mut Random) -> Vec<usize> {
    let (q, slope) = (shape.q as usize, shape.slopes[0] as usize);
    let side = (1..q).find(|side| side * side >= count).unwrap_or(q);
    let (row, line) = (random.below(q), random.below(q));
    let (down, right) = (1 + random.below(q - 1), 1 + random.below(q - 1));
    let mut positions = vec![];
    for row in (0..side).map(|i| (row + i * down) % q) {
        for line in (0..side).map(|i| (line + i * right) % q) {
            positions.push(row * q + (line + (q - slope) * row) % q);
        }
    }
    random.shuffle(&mut positions);
    positions
}

/// So many places: anywhere, crowded, or with as many as possible on one line.
pub fn some_places(shape: Shape, count: usize, random: &mut Random) -> [Vec<u32>; 3] {
    let t = random.below(shape.n as usize);
    let line = on_lines(shape, t, &[random.below(shape.q as usize)]);
    let rest = shuffled(shape, random).into_iter().filter(|j| !line.contains(&(*j as u32)));
    let line: Vec<usize> = line.iter().map(|&place| place as usize).chain(rest).collect();
    [first(shuffled(shape, random), count), first(crowd(shape, count, random), count), first(line, count)]
}

/// All places of these lines of a direction.
pub fn on_lines(shape: Shape, t: usize, lines: &[usize]) -> Vec<u32> {
    let on = |&j: &usize| lines.contains(&(check(shape, t, j) - t * shape.q as usize));
    list((0..shape.word_len()).filter(on).collect())
}

/// Up to so many positions that are not listed.
pub fn unlisted(shape: Shape, places: &[u32], count: usize, random: &mut Random) -> Vec<usize> {
    let mut others = shuffled(shape, random);
    others.retain(|j| !places.contains(&(*j as u32)));
    others.truncate(count);
    others
}

/// The places of a codeword with nothing to leave out: the first of these whose column is a sum of columns
/// before it, with those.
fn circuit(shape: Shape, among: &[usize]) -> Option<Vec<u32>> {
    let mut basis = Basis::default();
    among.iter().find_map(|&j| basis.take(shape, j).map(|sum| list([&sum[..], &[j]].concat())))
}

/// Circuits of every size that a few draws give.
pub fn some_circuits(shape: Shape, random: &mut Random) -> Vec<Vec<u32>> {
    let mut circuits = vec![];
    for count in [4, 9, 9, 25, 100, 961] {
        circuits.extend(circuit(shape, &crowd(shape, count, random)));
    }
    circuits.extend(circuit(shape, &shuffled(shape, random)));
    circuits
}

/// An unlisted position whose column is no sum of listed ones: damage there contradicts the list.
pub fn outside(shape: Shape, places: &[u32], random: &mut Random) -> Option<usize> {
    let mut basis = Basis::default();
    places.iter().for_each(|&place| {
        basis.take(shape, place as usize);
    });
    shuffled(shape, random).into_iter().find(|&j| !basis.spans(shape, j))
}
