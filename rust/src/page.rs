use crate::refusal::{answered, done};
use crate::{sys, Refusal, Shape};
use core::iter::FusedIterator;
use core::slice;

#[cfg(feature = "alloc")]
use alloc::{vec, vec::Vec};

/// A page in a word's information symbols: its number, and its marks, which are the numbers of the functions called.
///
/// ```
/// use shaftglimmer::{extract, parse_page, Refusal, Shape};
///
/// let shape = Shape::new(3, 2, 8)?;
/// let data = extract(&shape, &[5, 2, 7, 3, 1, 2, 6, 3, 5])?;
/// let page = parse_page(&shape, &data)?;
/// assert_eq!(page.number(), 1);
/// assert_eq!(page.marks().collect::<Vec<u8>>(), [3, 5]);
/// # Ok::<(), Refusal>(())
/// ```
#[derive(Clone, Copy, Debug, PartialEq, Eq, Hash)]
pub struct Page<'a> {
    number: u32,
    marks: &'a [u32],
}

/// Reads the page in these information symbols. Refuses with 2, 3, 5, 6, 7 or 8.
///
/// ```
/// use shaftglimmer::{parse_page, Refusal, Shape};
///
/// let shape = Shape::new(3, 2, 8)?;
/// assert_eq!(parse_page(&shape, &[1, 2, 3, 5])?.marks().collect::<Vec<u8>>(), [3, 5]);
/// assert_eq!(parse_page(&shape, &[1, 1, 3, 5]), Err(Refusal::Tail)); // one mark, and 5 stands after it
/// # Ok::<(), Refusal>(())
/// ```
pub fn parse_page<'a>(shape: &Shape, data: &'a [u32]) -> Result<Page<'a>, Refusal> {
    let answer = answered(sys::parse_page(shape, data))?;
    let (number, count) = (answer / 1024, answer as usize % 1024);
    let marks = data.get(2..).and_then(|rest| rest.get(..count)).unwrap_or_default();
    Ok(Page { number, marks })
}

/// The information symbols of the page with this number and these marks. Refuses with 5, 6 or 3.
///
/// ```
/// use shaftglimmer::{write_page, Refusal, Shape};
///
/// assert_eq!(write_page(&Shape::new(3, 2, 8)?, 1, [3, 5])?, [1, 2, 3, 5]);
/// # Ok::<(), Refusal>(())
/// ```
#[cfg(feature = "alloc")]
pub fn write_page(shape: &Shape, number: u32, marks: impl IntoIterator<Item = u8>) -> Result<Vec<u32>, Refusal> {
    // One mark too many is refused like any more.
    let marks: Vec<u32> = marks.into_iter().take(shape.most_marks().saturating_add(1)).map(u32::from).collect();
    let mut data = vec![0; shape.data_length()];
    write_page_with(shape, number, &marks, &mut data).map(|()| data)
}

/// [`write_page`](crate::write_page) in lent memory: the information symbols are written. Refuses with 2 and 7 too.
pub fn write_page_with(shape: &Shape, number: u32, marks: &[u32], data: &mut [u32]) -> Result<(), Refusal> {
    done(sys::write_page(shape, number, marks, data))
}

impl<'a> Page<'a> {
    /// Its number, below 1024.
    pub const fn number(&self) -> u32 {
        self.number
    }

    /// Its marks. Mark 0 is the idle loop, which is no call.
    pub fn marks(&self) -> Marks<'a> {
        Marks(self.marks.iter())
    }
}

impl<'a> IntoIterator for Page<'a> {
    type Item = u8;
    type IntoIter = Marks<'a>;

    fn into_iter(self) -> Marks<'a> {
        self.marks()
    }
}

/// The marks of a page, in order.
#[derive(Clone, Debug)]
pub struct Marks<'a>(slice::Iter<'a, u32>);

/// The library has tested that a mark is below 256.
fn function(mark: &u32) -> u8 {
    *mark as u8
}

impl Iterator for Marks<'_> {
    type Item = u8;

    fn next(&mut self) -> Option<u8> {
        self.0.next().map(function)
    }

    fn size_hint(&self) -> (usize, Option<usize>) {
        self.0.size_hint()
    }
}

impl DoubleEndedIterator for Marks<'_> {
    fn next_back(&mut self) -> Option<u8> {
        self.0.next_back().map(function)
    }
}

impl ExactSizeIterator for Marks<'_> {}

impl FusedIterator for Marks<'_> {}
