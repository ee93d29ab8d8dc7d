//! From a failing case to the smallest failing one that a greedy search finds.

use std::ops::Range;
use std::time::{Duration, Instant};

pub trait Case: Sized {
    /// What is wrong with this case, or nothing.
    fn difference(&self) -> Option<String>;

    /// Simpler cases, the boldest step first; each is made only when it is asked for.
    fn smaller(&self) -> impl Iterator<Item = Self>;

    fn describe(&self) -> String;
}

/// Nothing if the case holds, else the smallest failing case found.
pub fn expect<C: Case + Clone>(case: &C) -> Result<(), String> {
    match case.difference() {
        None => Ok(()),
        Some(difference) => Err(smallest(case.clone(), difference)),
    }
}

fn smallest<C: Case>(mut case: C, mut difference: String) -> String {
    let end = Instant::now() + Duration::from_secs(5);
    loop {
        let failing = |smaller: C| smaller.difference().map(|found| (smaller, found));
        let found = case.smaller().take_while(|_| Instant::now() < end).find_map(failing);
        match found {
            Some(found) => (case, difference) = found,
            None => return format!("{:.4000}: {difference}", case.describe()),
        }
    }
}

/// The list without one of its halves, quarters, .. and single items.
pub fn without_parts<T: Clone>(items: &[T]) -> impl Iterator<Item = Vec<T>> + '_ {
    parts(items.len()).map(|part| [&items[..part.start], &items[part.end..]].concat())
}

/// The list with one of its halves, quarters, .. and single items zero, where they are not already.
pub fn with_zeros(values: &[u32]) -> impl Iterator<Item = Vec<u32>> + '_ {
    let zeroed = |part: Range<usize>| {
        let mut values = values.to_vec();
        values[part].fill(0);
        values
    };
    let nonzero = |part: &Range<usize>| values[part.clone()].iter().any(|&value| value != 0);
    parts(values.len()).filter(nonzero).map(zeroed)
}

/// The whole, its halves, quarters, .. and at last single items.
pub fn parts(length: usize) -> impl Iterator<Item = Range<usize>> {
    let sizes = std::iter::successors(Some(length), |&size| (size > 1).then(|| size.div_ceil(2)));
    let cut = move |size: usize| (0..length).step_by(size).map(move |at| at..length.min(at + size));
    sizes.filter(|&size| size > 0).flat_map(cut)
}
