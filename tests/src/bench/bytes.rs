//! Reading words as bytes, against a straightforward reader of bytes.

use super::answer;
use super::contest::{heading, row, Times};
use super::words::{race, some_words, Kind};
use crate::reference::shape::Shape;
use crate::rivals::straightforward;
use shaftglimmer::bytes::read_word;
use std::hint::black_box;

/// How much of the straightforward reader's time is allowed.
const TARGET: f64 = 0.8;

/// Prints the table; gives the rows that miss their target.
pub fn table() -> Vec<String> {
    heading("work", &["ours / straightforward"]);
    let shapes = [Shape::new(17, 4, 32), Shape::new(3, 2, 8), Shape::new(31, 8, 32)];
    let rows = shapes.into_iter().flat_map(|shape| Kind::ALL.map(|kind| (shape, kind)));
    let name = |kind: Kind| format!("read as bytes, {}", kind.name());
    rows.filter_map(|(shape, kind)| row(shape, &name(kind), reading(shape, kind), &[TARGET])).collect()
}

fn reading(shape: Shape, kind: Kind) -> Times {
    let words = some_words(shape, "reading bytes", |word, random| kind.damage(shape, word, random));
    let bytes: Vec<u8> = words.into_iter().flat_map(u32::to_le_bytes).collect();
    let Shape { q, n, b, .. } = black_box(shape);
    let ours = |word: &mut [u8]| answer(read_word(q, n, b, word));
    let plain = |word: &mut [u8]| straightforward::read_word(q, n, b, word);
    race(shape, &bytes, [&ours, &plain])
}
