//! Reading by vote, against a vote made fast by hand.

use super::answer;
use super::contest::{heading, row, Times};
use super::words::{race, some_words};
use crate::damage::{apply, make, stripe, Style};
use crate::library::shape_in;
use crate::random::Random;
use crate::reference::shape::Shape;
use crate::rivals::vote;
use shaftglimmer::decode_majority;
use std::hint::black_box;

/// How much of the tuned vote's time is allowed.
pub const TARGET: f64 = 1.2;

/// What is done to a codeword.
#[derive(Clone, Copy)]
enum Kind {
    Undamaged,
    /// n/2 symbols, anywhere.
    Spread,
    /// n/2 symbols of one check, all changed alike.
    Stripe,
}

impl Kind {
    const ALL: [Kind; 3] = [Kind::Undamaged, Kind::Spread, Kind::Stripe];

    fn name(self) -> &'static str {
        match self {
            Kind::Undamaged => "undamaged",
            Kind::Spread => "n/2 damaged",
            Kind::Stripe => "a stripe of n/2",
        }
    }

    fn damage(self, shape: Shape, word: &mut [u32], random: &mut Random) {
        let error = match self {
            Kind::Undamaged => return,
            Kind::Spread => make(Style::Spread, shape, shape.most_votes(), random),
            Kind::Stripe => stripe(shape, shape.most_votes(), random),
        };
        apply(&error, word);
    }
}

/// Prints the table; gives the rows that miss their target.
pub fn table() -> Vec<String> {
    heading("by vote", &["ours / tuned vote"]);
    let shapes = [Shape::new(17, 4, 32), Shape::new(31, 8, 32)];
    let rows = shapes.into_iter().flat_map(|shape| Kind::ALL.map(|kind| (shape, kind)));
    rows.filter_map(|(shape, kind)| row(shape, kind.name(), voting(shape, kind), &[TARGET])).collect()
}

fn voting(shape: Shape, kind: Kind) -> Times {
    let words = some_words(shape, "voting", |word, random| kind.damage(shape, word, random));
    let shape = black_box(shape);
    let values = shape.values();
    let ours = |word: &mut [u32]| answer(decode_majority(shape_in(&values), word));
    let tuned = |word: &mut [u32]| vote::decode_majority(shape, word);
    race(shape, &words, [&ours, &tuned])
}
