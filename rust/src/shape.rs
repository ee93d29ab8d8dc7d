use crate::refusal::done;
use crate::{sys, Refusal};
use core::mem::{align_of, size_of};

/// The shape of words: order q, directions n, width b, and the slopes of the directions.
///
/// There are only shapes that the library accepts. One has the layout of the ten numbers that cross to the library: q,
/// n, b, seven slopes.
///
/// ```
/// use shaftglimmer::{Refusal, Shape};
///
/// let shape = Shape::new(17, 4, 32)?;
/// assert_eq!((shape.word_length(), shape.data_length(), shape.scratch_length()), (289, 224, 650));
/// assert_eq!(Shape::with_slopes(17, 4, 32, [0, 1, 1, 0, 0, 0, 0]), Err(Refusal::Slope));
/// # Ok::<(), Refusal>(())
/// ```
#[derive(Clone, Copy, Debug, PartialEq, Eq, Hash)]
#[repr(C)]
pub struct Shape {
    q: u32,
    n: u32,
    b: u32,
    slopes: [u32; 7],
}

const _: () = assert!(size_of::<Shape>() == 4 * Shape::VALUES && align_of::<Shape>() == 4);

impl Shape {
    /// How many numbers a shape is.
    pub const VALUES: usize = 10;

    /// The standard slopes.
    pub const STANDARD: [u32; 7] = [0, 1, 2, 3, 4, 5, 6];

    /// The most symbols that a word has, of any shape.
    pub const WORD_MOST: usize = 961;

    /// The most information symbols that a word has, of any shape.
    pub const DATA_MOST: usize = 900;

    /// The longest scratch that is asked for, of any shape.
    pub const SCRATCH_MOST: usize = 7471;

    /// The shape of these numbers with the standard slopes. Refuses with 1.
    pub fn new(q: u32, n: u32, b: u32) -> Result<Shape, Refusal> {
        Shape::with_slopes(q, n, b, Shape::STANDARD)
    }

    /// The shape with these slopes, of which the first n - 1 count. Refuses with 1 or 18.
    pub fn with_slopes(q: u32, n: u32, b: u32, slopes: [u32; 7]) -> Result<Shape, Refusal> {
        let shape = Shape { q, n, b, slopes };
        // A reader that is lent no symbol tests the shape first, and refuses with 2 where nothing is wrong with it.
        match done(sys::decode(&shape, &mut [])) {
            Ok(()) | Err(Refusal::Length) => Ok(shape),
            Err(refusal) => Err(refusal),
        }
    }

    /// The shape as it was saved. Refuses with 1 or 18.
    pub fn from_values(values: [u32; Shape::VALUES]) -> Result<Shape, Refusal> {
        let [q, n, b, s1, s2, s3, s4, s5, s6, s7] = values;
        Shape::with_slopes(q, n, b, [s1, s2, s3, s4, s5, s6, s7])
    }

    /// Its numbers: q, n, b, the slopes.
    pub const fn to_values(&self) -> [u32; Shape::VALUES] {
        let [s1, s2, s3, s4, s5, s6, s7] = self.slopes;
        [self.q, self.n, self.b, s1, s2, s3, s4, s5, s6, s7]
    }

    /// The order q: a word is a square of q rows and q columns.
    pub const fn q(&self) -> u32 {
        self.q
    }

    /// The number of directions n.
    pub const fn n(&self) -> u32 {
        self.n
    }

    /// The width b: symbols are below 2^b.
    pub const fn b(&self) -> u32 {
        self.b
    }

    /// The slopes, of which the first n - 1 count.
    pub const fn slopes(&self) -> &[u32; 7] {
        &self.slopes
    }

    /// How many symbols a word has.
    pub fn word_length(&self) -> usize {
        sys::word_length(self) as usize
    }

    /// How many information symbols a word has, which are a page's symbols.
    pub fn data_length(&self) -> usize {
        sys::data_length(self) as usize
    }

    /// How long a lent scratch has to be.
    pub fn scratch_length(&self) -> usize {
        sys::scratch_length(self) as usize
    }

    /// How many marks a page holds.
    pub fn most_marks(&self) -> usize {
        self.data_length().saturating_sub(2)
    }
}
