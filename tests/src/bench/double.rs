//! Two wrong symbols that mask nothing, so that clean reading restores them too.

use super::answer;
use super::contest::{heading, row, Times};
use super::words::{race, some_words};
use crate::damage::{apply, unmasked};
use crate::library::shape_in;
use crate::random::Random;
use crate::reference::shape::Shape;
use shaftglimmer::{decode, decode_two};
use std::hint::black_box;

/// How much of clean reading's time is allowed.
const TARGET: f64 = 1.5;

/// Prints the table; gives the row if it misses its target.
pub fn table() -> Vec<String> {
    heading("two wrong symbols", &["as two / clean"]);
    let shape = Shape::new(17, 4, 32);
    row(shape, "unmasked, weight 2", reading(shape), &[TARGET]).into_iter().collect()
}

fn reading(shape: Shape) -> Times {
    let damage = |word: &mut [u32], random: &mut Random| apply(&unmasked(shape, 2, random), word);
    let words = some_words(shape, "two wrong symbols", damage);
    let values = black_box(shape).values();
    let as_two = |word: &mut [u32]| answer(decode_two(shape_in(&values), word));
    let clean = |word: &mut [u32]| answer(decode(shape_in(&values), word));
    race(shape, &words, [&as_two, &clean])
}
