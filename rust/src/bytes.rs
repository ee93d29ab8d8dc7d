//! Words and pages as bytes, four a symbol, low byte first, of shapes with the standard slopes.

use crate::refusal::answered;
use crate::{sys, Refusal};

/// Reads a damaged word of 4×q×q bytes in place, as [`decode`](crate::decode) does. Gives the number of symbols
/// changed. Refuses with 1, 2, 3 or 4, and then leaves the bytes as they came.
///
/// ```
/// use shaftglimmer::bytes::read_word;
///
/// let mut word = [12u32, 2, 7, 3, 1, 2, 6, 3, 5].map(u32::to_le_bytes).concat();
/// assert_eq!(read_word(3, 2, 8, &mut word), Ok(1));
/// assert_eq!(word[0], 5);
/// ```
pub fn read_word(q: u32, n: u32, b: u32, word: &mut [u8]) -> Result<u32, Refusal> {
    answered(sys::read_word(q, n, b, word))
}

/// Reads the page in the bytes of a word's information symbols. Gives its number, and how many marks it has. Refuses
/// with 1, 2, 3, 5, 6, 7 or 8.
///
/// ```
/// use shaftglimmer::bytes::read_page;
///
/// let data = [1u32, 2, 3, 5].map(u32::to_le_bytes).concat();
/// assert_eq!(read_page(3, 2, 8, &data), Ok((1, 2)));
/// ```
pub fn read_page(q: u32, n: u32, b: u32, data: &[u8]) -> Result<(u32, u32), Refusal> {
    answered(sys::read_page(q, n, b, data)).map(|answer| (answer / 1024, answer % 1024))
}
