//! Tests that a group has of many shapes. Letters in a test's name, (q, n) or (q, n, b), stand for the numbers.

use super::calls::turned_down;
use super::expect::expect;
use crate::call::{Call, Make};
use crate::random::Random;
use crate::reference::shape::{all_slopes, orders_and_directions, Refusal, Shape};
use crate::report::{Group, Verdict};

/// The widths of a test whose order is q.
pub type Widths = fn(u32, &mut Random) -> Vec<u32>;

/// The narrowest, a byte, and the two widest.
pub const WIDTHS: Widths = |_, _| vec![1, 8, 31, 32];

/// One that is drawn.
pub const ONE_WIDTH: Widths = |_, random| vec![random.pick(&[1, 8, 11, 32])];

/// Each of the widths so many times.
pub fn repeated(widths: &[u32], rounds: u32) -> Vec<u32> {
    widths.iter().flat_map(|&b| vec![b; rounds as usize]).collect()
}

impl Group {
    /// A test for every (q, n).
    pub fn test_each(
        &mut self,
        name: &str,
        body: impl Fn(u32, u32, &mut Random) -> Verdict + Copy + Send + Sync + 'static,
    ) {
        for (q, n) in orders_and_directions() {
            self.test(named(name, q, n), move |random| body(q, n, random));
        }
    }

    /// A test for every (q, n), of a shape of each width, their slopes drawn.
    pub fn test_shapes(
        &mut self,
        name: &str,
        widths: Widths,
        body: impl Fn(Shape, &mut Random) -> Verdict + Copy + Send + Sync + 'static,
    ) {
        self.test_each(name, move |q, n, random| of_shapes(q, n, widths(q, random), body, random));
    }

    /// A test for each of these (q, n, b), of so many shapes, their slopes drawn.
    pub fn test_drawn(
        &mut self,
        name: &str,
        shapes: &[(u32, u32, u32)],
        rounds: usize,
        body: impl Fn(Shape, &mut Random) -> Verdict + Copy + Send + Sync + 'static,
    ) {
        for &(q, n, b) in shapes {
            let name = name.replace("(q, n, b)", &format!("({q}, {n}, {b})"));
            self.test(name, move |random| of_shapes(q, n, vec![b; rounds], body, random));
        }
    }

    /// A test of (3, n, 1) for each of these n and each list of slopes.
    pub fn test_all_words(
        &mut self,
        directions: &[u32],
        body: impl Fn(Shape, &mut Random) -> Verdict + Copy + Send + Sync + 'static,
    ) {
        for shape in directions.iter().flat_map(|&n| all_slopes(3, n, 1)) {
            let name = format!("all words of (3, {}, 1), slopes {:?}", shape.n, shape.own_slopes());
            self.test(name, move |random| body(shape, random));
        }
    }
}

/// Gives a group tests with calls by whichever makes them.
pub struct Shapes<'a> {
    group: &'a mut Group,
    make: Make,
    widths: Widths,
    pairs: Vec<(u32, u32)>,
}

impl<'a> Shapes<'a> {
    pub fn new(group: &'a mut Group, make: Make, widths: Widths) -> Shapes<'a> {
        Shapes { group, make, widths, pairs: orders_and_directions() }
    }

    pub fn only(mut self, wanted: fn(u32, u32) -> bool) -> Shapes<'a> {
        self.pairs.retain(|&(q, n)| wanted(q, n));
        self
    }

    /// A test for each (q, n), of a shape of each width, their slopes drawn.
    pub fn test(
        &mut self,
        name: &str,
        body: impl Fn(Make, Shape, &mut Random) -> Verdict + Copy + Send + Sync + 'static,
    ) {
        let (make, widths) = (self.make, self.widths);
        let of_shape = move |shape: Shape, random: &mut Random| body(make, shape, random);
        for &(q, n) in &self.pairs {
            let test = move |random: &mut Random| of_shapes(q, n, widths(q, random), of_shape, random);
            self.group.test(named(name, q, n), test);
        }
    }
}

fn named(name: &str, q: u32, n: u32) -> String {
    name.replace("(q, n)", &format!("({q}, {n})"))
}

fn of_shapes(
    q: u32,
    n: u32,
    widths: Vec<u32>,
    body: impl Fn(Shape, &mut Random) -> Verdict,
    random: &mut Random,
) -> Verdict {
    let mut tried = 0;
    for b in widths {
        tried += body(random.shape(q, n, b), random)?;
    }
    Ok(tried)
}

/// Tests 1, 18, 2, 3 of a reading, in this order, also of a word that would be refused after them.
pub fn faults(make: Make, reading: fn(Shape, &[u32]) -> Call, shape: Shape, random: &mut Random) -> Verdict {
    let mut tried = 0;
    let mut refused = |shape: Shape, word: &[u32], refusal: Refusal| {
        tried += 1;
        let call = reading(shape, word);
        expect(make, &call, &turned_down(&call, refusal))
    };
    let size = shape.word_len();
    let word = random.symbols(shape, size);
    let mut wide = word.clone();
    if let Some(large) = shape.largest().checked_add(1) {
        wide[random.below(size)] = large;
        refused(shape, &wide, Refusal::Width)?;
    }
    for length in [0, size - 1, size + 1, 4 * size] {
        let mut word = wide.clone();
        word.resize(length, u32::MAX);
        refused(shape, &word, Refusal::Length)?;
    }
    let mut slopes = shape.slopes;
    slopes[shape.most_errors() - 1] = shape.q;
    let sloped = shape.with_slopes(slopes);
    for word in [&word, &wide, &wide[..size - 1]] {
        refused(sloped, word, Refusal::Slope)?;
        for shape in [Shape { q: 9, ..sloped }, Shape { n: 9, ..sloped }, Shape { b: 33, ..sloped }] {
            refused(shape, word, Refusal::Shape)?;
        }
    }
    Ok(tried)
}
