//! Dead cells, against elimination as one would write it down first.

use super::answer;
use super::contest::{heading, row, timed, times, Batch, Times};
use super::words::batch_size;
use crate::damage::list;
use crate::library::shape_in;
use crate::random::Random;
use crate::reference::shape::Shape;
use crate::rivals::elimination;
use shaftglimmer::fill_with;
use std::hint::black_box;

/// Which places are named.
#[derive(Clone, Copy)]
enum Named {
    /// n of them, anywhere.
    Few,
    /// Every second one; more than one codeword agrees.
    Half,
}

impl Named {
    fn text(self) -> &'static str {
        match self {
            Named::Few => "n places named",
            Named::Half => "half of all places named",
        }
    }

    fn places(self, shape: Shape, random: &mut Random) -> Vec<u32> {
        let size = shape.word_len() as u32;
        match self {
            Named::Few => list(random.positions(shape.n as usize, size as usize)),
            Named::Half => (0..size).step_by(2).collect(),
        }
    }

    /// How much of the straightforward way's time is allowed.
    fn target(self) -> f64 {
        match self {
            Named::Few => 0.5,
            Named::Half => 1.5,
        }
    }
}

/// Prints the table; gives the rows that miss their target.
pub fn table() -> Vec<String> {
    heading("dead cells", &["ours / straightforward"]);
    let few = Shape::new(17, 4, 32);
    let many = Shape::new(31, 8, 32);
    let rows = [(few, Named::Few), (many, Named::Few), (many, Named::Half)];
    let row = |(shape, named): (Shape, Named)| row(shape, named.text(), filling(shape, named), &[named.target()]);
    rows.into_iter().filter_map(row).collect()
}

/// A list of places, and a codeword with wrong symbols at them.
pub(super) type Cells = (Vec<u32>, Vec<u32>);

/// Places, word and scratch.
pub(super) type Fill<'a> = &'a dyn Fn(&[u32], &mut [u32], &mut [u32]) -> u32;

fn filling(shape: Shape, named: Named) -> Times {
    let mut random = Random::new(1, "filling");
    let mut cells = || {
        let places = named.places(shape, &mut random);
        let mut word = random.codeword(shape);
        places.iter().for_each(|&place| word[place as usize] ^= random.nonzero_symbol(shape));
        (places, word)
    };
    let all: Vec<Cells> = (0..batch_size(shape)).map(|_| cells()).collect();
    let shape = black_box(shape);
    let values = shape.values();
    let contestants: [Fill; 2] = [
        &|places, word, scratch| answer(fill_with(shape_in(&values), places, word, scratch)),
        &|places, word, scratch| elimination::fill(shape, places, word, scratch),
    ];
    let results = contestants.map(|fill| fill_all(shape, fill, &all));
    assert!(results[0] == results[1], "the two disagree");
    times(all.len(), contestants.map(|fill| batch(shape, fill, &all)))
}

/// Each answer, and the words as left.
pub(super) fn fill_all(shape: Shape, fill: Fill, all: &[Cells]) -> Vec<(u32, Vec<u32>)> {
    let mut scratch = vec![7; shape.scratch_len()];
    let filled = |(places, word): &Cells| {
        let mut word = word.clone();
        (fill(places, &mut word, &mut scratch), word)
    };
    all.iter().map(filled).collect()
}

/// The work on copies of the words.
pub(super) fn batch<'a>(shape: Shape, fill: Fill<'a>, all: &'a [Cells]) -> Batch<'a> {
    let mut work: Vec<Vec<u32>> = all.iter().map(|(_, word)| word.clone()).collect();
    let mut scratch = vec![0; shape.scratch_len()];
    Box::new(move || {
        for (word, (_, original)) in work.iter_mut().zip(all) {
            word.copy_from_slice(original);
        }
        timed(|| {
            for (word, (places, _)) in work.iter_mut().zip(all) {
                black_box(fill(places, word, &mut scratch));
            }
        })
    })
}
