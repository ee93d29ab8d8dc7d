//! Lines of text, as captures have them.

use crate::refusal::answered;
use crate::{sys, Refusal};

#[cfg(feature = "alloc")]
use alloc::vec::Vec;

/// So many values of a line are kept. No word has as many.
pub const LINE_MOST: usize = 1024;

/// The values of a line, which comes without its newline: decimal, at most 2^32 - 1, without leading zeros, with one
/// space between two of them. Of more than 1,024 values the first 1,024 are given. Refuses every other line with 10.
///
/// ```
/// use shaftglimmer::{parse_line, Refusal};
///
/// assert_eq!(parse_line(b"5 2 7 0"), Ok(vec![5, 2, 7, 0]));
/// assert_eq!(parse_line(b"5  2"), Err(Refusal::Syntax));
/// assert_eq!(parse_line(b"05"), Err(Refusal::Syntax));
/// assert_eq!(parse_line(b"5\r"), Err(Refusal::Syntax));
/// ```
#[cfg(feature = "alloc")]
pub fn parse_line(line: &[u8]) -> Result<Vec<u32>, Refusal> {
    parse_line_with(line, &mut [0; LINE_MOST]).map(|values| values.to_vec())
}

/// [`parse_line`](crate::parse_line) in lent memory: the values are its first part. What follows them is as lent.
pub fn parse_line_with<'a>(line: &[u8], values: &'a mut [u32; LINE_MOST]) -> Result<&'a mut [u32], Refusal> {
    let count = answered(sys::parse_line(line, values))? as usize;
    Ok(values.get_mut(..count.min(LINE_MOST)).unwrap_or_default())
}
