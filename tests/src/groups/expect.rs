//! What must come of a call, and where it does not, the smallest call of which it does not.

use super::calls::turned_down;
use crate::call::{difference, After, Call, Entry, Make};
use crate::reference::brute::within;
use crate::reference::shape::Refusal;
use crate::shrink::{self, with_zeros, without_parts, Case};

/// The call ends as expected. Else it is made smaller, as long as it does not end as the reference ends it, and shown.
pub fn expect(make: Make, call: &Call, expected: &After) -> Result<(), String> {
    let Some(found) = difference(call.entry, expected, &make(call)) else { return Ok(()) };
    shrink::expect(&Lent { make, call: call.clone() })?;
    Err(format!("{}: {found}", call.text()))
}

/// The call ends as the reference ends it.
pub fn expect_reference(make: Make, call: &Call) -> Result<(), String> {
    expect(make, call, &call.on_reference())
}

/// Restored to this word, with so many symbols changed.
pub fn restored(word: &[u32], changed: usize) -> After {
    After { answer: changed as u64, slices: vec![word.to_vec()] }
}

/// The call, of a word, ends with the only codeword within so many symbols, or with this refusal if there is none.
/// Two would be a fault of the rules.
pub fn expect_nearest(
    make: Make,
    call: &Call,
    codewords: &[Vec<u32>],
    most: usize,
    refusal: Refusal,
) -> Result<(), String> {
    match &within(codewords, &call.slices[0], most)[..] {
        [] => expect(make, call, &turned_down(call, refusal)),
        [(only, changed)] => expect(make, call, &restored(only, *changed)),
        _ => Err(format!("{}: several codewords within {most} symbols", call.text())),
    }
}

/// A call that is to end as the reference ends it.
#[derive(Clone)]
struct Lent {
    make: Make,
    call: Call,
}

impl Lent {
    /// A list of places with fewer of them, any other slice with more zeros.
    fn smaller_slices(&self, i: usize) -> Box<dyn Iterator<Item = Vec<u32>> + '_> {
        let slice = &self.call.slices[i];
        match (self.call.entry, i) {
            (Entry::Fill | Entry::Restore, 0) => Box::new(without_parts(slice)),
            _ => Box::new(with_zeros(slice)),
        }
    }
}

impl Case for Lent {
    fn difference(&self) -> Option<String> {
        difference(self.call.entry, &self.call.on_reference(), &(self.make)(&self.call))
    }

    fn smaller(&self) -> impl Iterator<Item = Lent> {
        let with = |i: usize, values| Lent { make: self.make, call: self.call.with_slice(i, values) };
        let of_slice = move |i: usize| self.smaller_slices(i).map(move |values| with(i, values));
        (0..self.call.slices.len()).flat_map(of_slice)
    }

    fn describe(&self) -> String {
        self.call.text()
    }
}
