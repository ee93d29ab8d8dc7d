//! Checking proposals, against reading the received words.

use super::contest::{heading, row, timed, times, Batch, Times};
use super::words::batch_size;
use crate::damage::{damaged, unmasked};
use crate::library::shape_in;
use crate::random::Random;
use crate::reference::shape::Shape;
use shaftglimmer::{check, decode};
use std::hint::black_box;

/// How much of the time of reading is allowed.
const TARGET: f64 = 1.0;

/// Prints the table; gives the row of the first shape if it misses its target.
pub fn table() -> Vec<String> {
    heading("proposals", &["checked / read"]);
    let shapes = [Shape::new(17, 4, 32), Shape::new(3, 2, 8), Shape::new(31, 8, 32)];
    let rows = shapes.map(|shape| row(shape, "right ones for damaged words", checking(shape), &[TARGET]));
    rows.into_iter().take(1).flatten().collect()
}

/// A damaged word, and the codeword that it was.
type Pair = (Vec<u32>, Vec<u32>);

fn checking(shape: Shape) -> Times {
    let mut random = Random::new(1, "checking");
    let mut pair = || {
        let sent = random.codeword(shape);
        let weight = 1 + random.below(shape.most_errors());
        (damaged(&sent, &unmasked(shape, weight, &mut random)), sent)
    };
    let pairs: Vec<Pair> = (0..batch_size(shape)).map(|_| pair()).collect();
    let values = black_box(shape).values();
    let shape = shape_in(&values);
    let yes = pairs.iter().all(|(received, sent)| check(shape, received, sent) == Ok(true));
    assert!(yes, "a right proposal got no yes");
    times(pairs.len(), [checked(shape, &pairs), read(shape, &pairs)])
}

fn checked<'a>(shape: &'a shaftglimmer::Shape, pairs: &'a [Pair]) -> Batch<'a> {
    Box::new(move || {
        timed(|| {
            for (received, sent) in pairs {
                let _ = black_box(check(shape, received, sent));
            }
        })
    })
}

/// Reading works on copies, which are made outside the time.
fn read<'a>(shape: &'a shaftglimmer::Shape, pairs: &'a [Pair]) -> Batch<'a> {
    let mut work: Vec<Vec<u32>> = pairs.iter().map(|(received, _)| received.clone()).collect();
    Box::new(move || {
        for (word, (received, _)) in work.iter_mut().zip(pairs) {
            word.copy_from_slice(received);
        }
        timed(|| {
            for word in &mut work {
                let _ = black_box(decode(shape, word));
            }
        })
    })
}
