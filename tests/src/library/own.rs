//! The functions of the crate that make their own memory.

use super::{done, number, session_in, shape_in};
use crate::call::{After, Call, Entry};
use shaftglimmer::{encode, extract, fill, looked, restore, write_page, Refusal};

impl Call {
    /// Whether the crate's function that makes its own memory ends as the one did that was lent it, where there is
    /// one, and all that is lent has its right length.
    pub(super) fn is_as_by_itself(&self, after: &After) -> bool {
        let values = self.shape.values();
        let shape = shape_in(&values);
        let (word, data, scratch) = (shape.word_length(), shape.data_length(), shape.scratch_length());
        let lengths: Vec<usize> = self.slices.iter().map(Vec::len).collect();
        match (self.entry, &self.slices[..], &lengths[..]) {
            (Entry::Encode, [data, ..], &[_, s, w]) if (s, w) == (scratch, word) => {
                given(after, 2, encode(shape, data))
            }
            (Entry::Extract, [word, ..], &[_, s, d]) if (s, d) == (scratch, data) => {
                given(after, 2, extract(shape, word))
            }
            (Entry::Looked, [lent, _], &[_, w]) if w == word => given(after, 1, looked(shape, lent)),
            (Entry::Fill | Entry::Restore, [places, lent, _], &[_, _, s]) if s == scratch => {
                let mut lent = lent.clone();
                let call = if self.entry == Entry::Fill { fill } else { restore };
                number(call(shape, places, &mut lent)) == after.answer && lent == after.slices[1]
            }
            (Entry::WritePage, [marks, _], &[_, d]) if d == data && marks.iter().all(|&mark| mark < 256) => {
                given(after, 1, write_page(shape, self.number, marks.iter().map(|&mark| mark as u8)))
            }
            (Entry::Arrive | Entry::Batch, _, _) => self.arrives_by_itself(after),
            _ => true,
        }
    }

    /// The same of an arrival and of a bundle.
    fn arrives_by_itself(&self, after: &After) -> bool {
        let (mut values, mut words) = (self.slices[0].clone(), self.slices[1].clone());
        let session = session_in(&mut values);
        let way = self.way();
        if self.slices[2].len() != session.shape().scratch_length() {
            return true;
        }
        let alike = if self.entry == Entry::Arrive {
            session.arrive(way, &mut words).to_values()[..] == after.slices[3]
        } else {
            match session.arrive_all(way, &mut words) {
                Ok(outcomes) => after.answer == 0 && outcomes.as_values()[..] == after.slices[3],
                Err(refusal) => done(Err(refusal)) == after.answer,
            }
        };
        alike && values == after.slices[0] && words == after.slices[1]
    }
}

/// Whether this is what slice i was left with, or the refusal that was answered.
fn given(after: &After, i: usize, result: Result<Vec<u32>, Refusal>) -> bool {
    match result {
        Ok(values) => after.answer == 0 && values == after.slices[i],
        Err(refusal) => done(Err(refusal)) == after.answer,
    }
}
