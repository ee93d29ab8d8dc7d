//! Dead cells and damage together, against filling in the same words without the damage, or refusing them too.

use super::answer;
use super::contest::{heading, row, times, Times};
use super::erasures::{batch, fill_all, Cells, Fill};
use super::words::batch_size;
use crate::call::answer_of;
use crate::damage::{any_line, list};
use crate::library::shape_in;
use crate::random::Random;
use crate::reference::restorer::{self, reach};
use crate::reference::shape::Shape;
use shaftglimmer::{fill_with, restore_with};
use std::hint::black_box;

/// Which symbols are wrong beside the listed places.
#[derive(Clone, Copy, PartialEq, Eq)]
enum Beside {
    None,
    /// As many as are in reach, anywhere.
    Spread,
    /// As many, on one line with the places and all changed alike.
    Stripe,
    /// The whole word has nothing to do with a codeword.
    Random,
}

impl Beside {
    fn name(self, places: usize, others: usize) -> String {
        match self {
            Beside::None => format!("{places} listed, nothing else wrong"),
            Beside::Spread => format!("{places} listed, any {others} others wrong"),
            Beside::Stripe => format!("a stripe, {places} of it listed, {others} not"),
            Beside::Random => format!("refused, random symbols, {places} listed"),
        }
    }

    /// How much of filling in's time is allowed.
    fn target(self) -> f64 {
        if self == Beside::None {
            1.3
        } else {
            f64::INFINITY
        }
    }
}

/// Prints the table; gives the rows that miss their target.
pub fn table() -> Vec<String> {
    heading("dead cells and damage", &["restored / filled in"]);
    let mut missed = vec![];
    for shape in [Shape::new(17, 4, 32), Shape::new(31, 8, 32)] {
        let n = shape.n as usize;
        let at_the_limit = [1, n - 1, 2 * n - 3].map(|count| (count, Beside::Spread));
        let rows = [(n, Beside::None)].into_iter().chain(at_the_limit);
        for (count, beside) in rows.chain([(n - 1, Beside::Stripe), (n, Beside::Random)]) {
            let name = beside.name(count, reach(shape, count));
            missed.extend(row(shape, &name, restoring(shape, count, beside), &[beside.target()]));
        }
    }
    missed
}

/// A list of places and a word as it comes, and the same with nothing wrong beside the places.
fn cells(shape: Shape, count: usize, beside: Beside, random: &mut Random) -> (Cells, Cells) {
    let positions = if beside == Beside::Stripe {
        let mut line = any_line(shape, random.below(shape.n as usize), random);
        random.shuffle(&mut line);
        line
    } else {
        random.positions(count + reach(shape, count), shape.word_len())
    };
    let places = list(positions[..count].to_vec());
    let others = if beside == Beside::None { &[] } else { &positions[count..count + reach(shape, count)] };
    let mut filled = random.codeword(shape);
    if beside == Beside::Random {
        filled = (0..shape.word_len()).map(|_| random.symbol(shape)).collect();
        return ((places.clone(), filled.clone()), (places, filled));
    }
    let same = random.nonzero_symbol(shape);
    let mut wrong = || if beside == Beside::Stripe { same } else { random.nonzero_symbol(shape) };
    places.iter().for_each(|&place| filled[place as usize] ^= wrong());
    let mut word = filled.clone();
    others.iter().for_each(|&j| word[j] ^= wrong());
    ((places.clone(), word), (places, filled))
}

fn restoring(shape: Shape, count: usize, beside: Beside) -> Times {
    let mut random = Random::new(1, "restoring");
    let made = (0..batch_size(shape)).map(|_| cells(shape, count, beside, &mut random));
    let (all, to_fill): (Vec<Cells>, Vec<Cells>) = made.unzip();
    let shape = black_box(shape);
    let values = shape.values();
    let ours: Fill = &|places, word, scratch| answer(restore_with(shape_in(&values), places, word, scratch));
    let filling: Fill = &|places, word, scratch| answer(fill_with(shape_in(&values), places, word, scratch));
    let reference: Fill = &|places, word, scratch| answer_of(restorer::restore(shape, places, word, scratch)) as u32;
    let results = [ours, reference].map(|restore| fill_all(shape, restore, &all));
    assert!(results[0] == results[1], "the reference disagrees");
    times(all.len(), [batch(shape, ours, &all), batch(shape, filling, &to_fill)])
}
