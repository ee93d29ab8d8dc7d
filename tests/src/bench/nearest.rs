//! Reading the nearest codeword, against clean reading of such words as it can read, or refuses too.

use super::answer;
use super::contest::{heading, row, times, Times};
use super::words::{self, read_all, read_batch, some_words};
use crate::call::answer_of;
use crate::damage::{apply, make, stripe, Style};
use crate::library::shape_in;
use crate::random::Random;
use crate::reference::nearest;
use crate::reference::shape::Shape;
use shaftglimmer::{decode, decode_nearest};
use std::hint::black_box;

/// The shape whose stripes have a target.
const SHIPPED: Shape = Shape::new(17, 4, 32);

const SHAPES: [Shape; 3] = [SHIPPED, Shape::new(11, 5, 32), Shape::new(31, 8, 32)];

/// What is done to a codeword.
#[derive(Clone, Copy)]
enum Kind {
    Undamaged,
    /// n - 1 symbols, anywhere.
    Spread,
    /// n - 1 symbols of one check, all changed alike.
    Stripe,
    /// Symbols that have nothing to do with it.
    Random,
}

impl Kind {
    const ALL: [Kind; 4] = [Kind::Undamaged, Kind::Spread, Kind::Stripe, Kind::Random];

    fn name(self) -> &'static str {
        match self {
            Kind::Undamaged => "undamaged",
            Kind::Spread => "n - 1 damaged",
            Kind::Stripe => "a stripe of n - 1",
            Kind::Random => "refused, random symbols",
        }
    }

    fn damage(self, shape: Shape, word: &mut [u32], random: &mut Random) {
        match self {
            Kind::Undamaged => {}
            Kind::Spread => apply(&make(Style::Spread, shape, shape.most_errors(), random), word),
            Kind::Stripe => apply(&stripe(shape, shape.most_errors(), random), word),
            Kind::Random => word.fill_with(|| random.symbol(shape)),
        }
    }

    /// Clean reading has the same words, or damaged ones that it restores: a stripe it may refuse.
    fn damage_to_read(self, shape: Shape, word: &mut [u32], random: &mut Random) {
        match self {
            Kind::Undamaged | Kind::Random => self.damage(shape, word, random),
            Kind::Spread | Kind::Stripe => words::Kind::Damaged.damage(shape, word, random),
        }
    }

    /// How much of clean reading's time is allowed.
    fn target(self, shape: Shape) -> f64 {
        match self {
            Kind::Undamaged => 1.15,
            Kind::Stripe if shape == SHIPPED => 8.0,
            Kind::Spread | Kind::Stripe => f64::INFINITY,
            Kind::Random => 1.5,
        }
    }
}

/// Prints the table; gives the rows that miss their target.
pub fn table() -> Vec<String> {
    heading("nearest codeword", &["nearest / clean"]);
    let rows = SHAPES.into_iter().flat_map(|shape| Kind::ALL.map(|kind| (shape, kind)));
    rows.filter_map(|(shape, kind)| row(shape, kind.name(), reading(shape, kind), &[kind.target(shape)])).collect()
}

fn reading(shape: Shape, kind: Kind) -> Times {
    let words = some_words(shape, "nearest", |word, random| kind.damage(shape, word, random));
    let to_read = some_words(shape, "nearest", |word, random| kind.damage_to_read(shape, word, random));
    let (shape, size) = (black_box(shape), shape.word_len());
    let values = shape.values();
    let ours = |word: &mut [u32]| answer(decode_nearest(shape_in(&values), word));
    let clean = |word: &mut [u32]| answer(decode(shape_in(&values), word));
    let reference = |word: &mut [u32]| answer_of(nearest::decode_nearest(shape, word)) as u32;
    let results = [read_all(size, &ours, &mut words.clone()), read_all(size, &reference, &mut words.clone())];
    assert!(results[0] == results[1], "the reference disagrees");
    times(words.len() / shape.word_len(), [read_batch(size, &ours, &words), read_batch(size, &clean, &to_read)])
}
