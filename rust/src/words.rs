//! Words: written, read, filled in, restored, checked.

use crate::refusal::{answered, done};
use crate::{sys, Refusal, Shape};

#[cfg(feature = "alloc")]
use alloc::{vec, vec::Vec};

/// Reads a damaged word in place, the clean way: undoes damage to at most n - 1 symbols that no check hides. Gives the
/// number of symbols changed. Refuses with 2, 3 or 4, and then leaves the word as it came.
///
/// ```
/// use shaftglimmer::{decode, Refusal, Shape};
///
/// let mut word = [12, 2, 7, 3, 1, 2, 6, 3, 5];
/// assert_eq!(decode(&Shape::new(3, 2, 8)?, &mut word)?, 1);
/// assert_eq!(word, [5, 2, 7, 3, 1, 2, 6, 3, 5]);
/// # Ok::<(), Refusal>(())
/// ```
pub fn decode(shape: &Shape, word: &mut [u32]) -> Result<u32, Refusal> {
    answered(sys::decode(shape, word))
}

/// Reads a damaged word in place, by vote: undoes any damage to at most n/2 symbols, rounded down. Gives the number of
/// symbols changed. Refuses with 2, 3 or 15, and then leaves the word as it came.
pub fn decode_majority(shape: &Shape, word: &mut [u32]) -> Result<u32, Refusal> {
    answered(sys::decode_majority(shape, word))
}

/// Reads a damaged word in place: undoes any damage to at most two symbols, where there are three directions or more.
/// Gives the number of symbols changed. Refuses with 16, 2, 3 or 17, and then leaves the word as it came.
///
/// ```
/// use shaftglimmer::{decode, decode_two, Refusal, Shape};
///
/// // 7 stands on two symbols of one row, where it cancels
/// let (shape, mut word) = (Shape::new(3, 3, 3)?, [3, 6, 5, 2, 4, 6, 6, 5, 3]);
/// assert_eq!(decode(&shape, &mut word), Err(Refusal::Uncorrectable));
/// assert_eq!(decode_two(&shape, &mut word), Ok(2));
/// assert_eq!(word, [3, 6, 5, 5, 3, 6, 6, 5, 3]);
/// # Ok::<(), Refusal>(())
/// ```
pub fn decode_two(shape: &Shape, word: &mut [u32]) -> Result<u32, Refusal> {
    answered(sys::decode_two(shape, word))
}

/// Reads a damaged word in place: undoes any damage to at most n - 1 symbols, whether checks hide it or not. Gives the
/// number of symbols changed. Refuses with 2, 3 or 20, and then leaves the word as it came.
///
/// ```
/// use shaftglimmer::{decode, decode_nearest, Refusal, Shape};
///
/// // 7 stands on two symbols of one row, where it cancels: the clean way can't undo that
/// let (shape, mut word) = (Shape::new(3, 3, 3)?, [3, 6, 5, 2, 4, 6, 6, 5, 3]);
/// assert_eq!(decode(&shape, &mut word), Err(Refusal::Uncorrectable));
/// assert_eq!(decode_nearest(&shape, &mut word), Ok(2));
/// assert_eq!(word, [3, 6, 5, 5, 3, 6, 6, 5, 3]);
/// # Ok::<(), Refusal>(())
/// ```
pub fn decode_nearest(shape: &Shape, word: &mut [u32]) -> Result<u32, Refusal> {
    answered(sys::decode_nearest(shape, word))
}

/// Whether a word that somebody else restored is the one that [`decode`] makes of the received word. Refuses with 2 or
/// 3.
///
/// ```
/// use shaftglimmer::{check, Refusal, Shape};
///
/// let (received, proposed) = ([12, 2, 7, 3, 1, 2, 6, 3, 5], [5, 2, 7, 3, 1, 2, 6, 3, 5]);
/// assert!(check(&Shape::new(3, 2, 8)?, &received, &proposed)?);
/// # Ok::<(), Refusal>(())
/// ```
pub fn check(shape: &Shape, received: &[u32], proposed: &[u32]) -> Result<bool, Refusal> {
    answered(sys::check(shape, received, proposed)).map(|yes| yes != 0)
}

/// The codeword with these information symbols. Refuses with 2 or 3.
///
/// ```
/// use shaftglimmer::{encode, extract, Refusal, Shape};
///
/// let shape = Shape::new(3, 2, 3)?;
/// let word = encode(&shape, &[3, 5, 6, 7])?;
/// assert_eq!(word, [7, 5, 2, 6, 3, 5, 1, 6, 7]);
/// assert_eq!(extract(&shape, &word)?, [3, 5, 6, 7]);
/// # Ok::<(), Refusal>(())
/// ```
#[cfg(feature = "alloc")]
pub fn encode(shape: &Shape, data: &[u32]) -> Result<Vec<u32>, Refusal> {
    let mut word = vec![0; shape.word_length()];
    encode_with(shape, data, &mut word, &mut scratch(shape)).map(|()| word)
}

/// [`encode`](crate::encode) in lent memory: the word is written, and the scratch is working space.
pub fn encode_with(shape: &Shape, data: &[u32], word: &mut [u32], scratch: &mut [u32]) -> Result<(), Refusal> {
    done(sys::encode(shape, data, word, scratch))
}

/// The information symbols of a word, codeword or not. Refuses with 2 or 3.
///
/// ```
/// use shaftglimmer::{extract, Refusal, Shape};
///
/// // of nine symbols four carry information: those at places 4, 5, 7 and 8
/// assert_eq!(extract(&Shape::new(3, 2, 8)?, &[5, 2, 7, 3, 1, 2, 6, 3, 5])?, [1, 2, 3, 5]);
/// # Ok::<(), Refusal>(())
/// ```
#[cfg(feature = "alloc")]
pub fn extract(shape: &Shape, word: &[u32]) -> Result<Vec<u32>, Refusal> {
    let mut data = vec![0; shape.data_length()];
    extract_with(shape, word, &mut data, &mut scratch(shape)).map(|()| data)
}

/// [`extract`](crate::extract) in lent memory: the information symbols are written, and the scratch is working space.
pub fn extract_with(shape: &Shape, word: &[u32], data: &mut [u32], scratch: &mut [u32]) -> Result<(), Refusal> {
    done(sys::extract(shape, word, data, scratch))
}

/// Fills a word in where the symbols at these places, in rising order, are not to be believed. Gives the number of
/// symbols changed. Refuses with 2, 3, 12, 13 or 14, and then leaves the word as it came.
///
/// ```
/// use shaftglimmer::{fill, Refusal, Shape};
///
/// let mut word = [0, 2, 7, 3, 1, 2, 6, 3, 0];
/// assert_eq!(fill(&Shape::new(3, 2, 8)?, &[0, 8], &mut word)?, 2);
/// assert_eq!(word, [5, 2, 7, 3, 1, 2, 6, 3, 5]);
/// # Ok::<(), Refusal>(())
/// ```
#[cfg(feature = "alloc")]
pub fn fill(shape: &Shape, places: &[u32], word: &mut [u32]) -> Result<u32, Refusal> {
    fill_with(shape, places, word, &mut scratch(shape))
}

/// [`fill`](crate::fill) with lent working space.
pub fn fill_with(shape: &Shape, places: &[u32], word: &mut [u32], scratch: &mut [u32]) -> Result<u32, Refusal> {
    answered(sys::fill(shape, places, word, scratch))
}

/// Restores a word with dead cells and other damage: undoes anything at the f listed places, which rise, and any damage
/// to e other symbols as long as 2e + f is below 2n. Gives the number of symbols changed. Refuses with 2, 3, 12, 20 or
/// 14, and then leaves the word as it came; 14 never comes with fewer than 2n places.
///
/// ```
/// use shaftglimmer::{fill, restore, Refusal, Shape};
///
/// // cell 0 is gone, and symbol 8 is wrong besides
/// let (shape, mut word) = (Shape::new(3, 2, 8)?, [0, 2, 7, 3, 1, 2, 6, 3, 9]);
/// assert_eq!(fill(&shape, &[0], &mut word), Err(Refusal::Unfillable));
/// assert_eq!(restore(&shape, &[0], &mut word), Ok(2));
/// assert_eq!(word, [5, 2, 7, 3, 1, 2, 6, 3, 5]);
/// # Ok::<(), Refusal>(())
/// ```
#[cfg(feature = "alloc")]
pub fn restore(shape: &Shape, places: &[u32], word: &mut [u32]) -> Result<u32, Refusal> {
    restore_with(shape, places, word, &mut scratch(shape))
}

/// [`restore`](crate::restore) with lent working space.
pub fn restore_with(shape: &Shape, places: &[u32], word: &mut [u32], scratch: &mut [u32]) -> Result<u32, Refusal> {
    answered(sys::restore(shape, places, word, scratch))
}

/// How many checks of each symbol the clean way looks at, up to the first that is silent. Refuses with 2 or 3.
///
/// ```
/// use shaftglimmer::{looked, Refusal, Shape};
///
/// // symbol 0 is wrong: its row shows it, so for the three symbols there the column is looked at too
/// assert_eq!(looked(&Shape::new(3, 2, 8)?, &[12, 2, 7, 3, 1, 2, 6, 3, 5])?, [2, 2, 2, 1, 1, 1, 1, 1, 1]);
/// # Ok::<(), Refusal>(())
/// ```
#[cfg(feature = "alloc")]
pub fn looked(shape: &Shape, word: &[u32]) -> Result<Vec<u32>, Refusal> {
    let mut looked = vec![0; shape.word_length()];
    looked_with(shape, word, &mut looked).map(|()| looked)
}

/// [`looked`](crate::looked) in lent memory, which is written.
pub fn looked_with(shape: &Shape, word: &[u32], looked: &mut [u32]) -> Result<(), Refusal> {
    done(sys::looked(shape, word, looked))
}

/// Working space for one call.
#[cfg(feature = "alloc")]
pub(crate) fn scratch(shape: &Shape) -> Vec<u32> {
    vec![0; shape.scratch_length()]
}
