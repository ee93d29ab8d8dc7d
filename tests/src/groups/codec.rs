//! Writing and extraction for every (q, n), with the standard slopes and with others.

use super::every::repeated;
use super::expect::expect_reference;
use crate::call::{Call, Entry};
use crate::random::Random;
use crate::reference::shape::Shape;
use crate::reference::writer::codeword;
use crate::report::{Group, Unit, Verdict};

pub fn group() -> Group {
    let mut group = Group::new("writing and extraction", Unit::Calls);
    let widths = |_, random: &mut Random| repeated(&[1, 8, 11, 31, 32, 1 + random.below(32) as u32], 12);
    group.test_shapes("random symbols of (q, n)", widths, random_symbols);
    group.test_each("single symbols of (q, n)", single_symbols);
    group
}

/// Each call is lent a scratch and a result slice full of old numbers.
fn encode(shape: Shape, data: &[u32], random: &mut Random) -> Call {
    let (scratch, word) = (random.numbers(shape.scratch_len()), random.numbers(shape.word_len()));
    Call::new(Entry::Encode, shape, &[data, &scratch, &word])
}

fn extract(shape: Shape, word: &[u32], random: &mut Random) -> Call {
    let (scratch, data) = (random.numbers(shape.scratch_len()), random.numbers(shape.data_len()));
    Call::new(Entry::Extract, shape, &[word, &scratch, &data])
}

fn random_symbols(shape: Shape, random: &mut Random) -> Verdict {
    let data = random.symbols(shape, shape.data_len());
    expect_reference(Call::on_library, &encode(shape, &data, random))?;
    expect_reference(Call::on_library, &extract(shape, &codeword(shape, &data), random))?;
    let any = random.symbols(shape, shape.word_len());
    expect_reference(Call::on_library, &extract(shape, &any, random))?;
    Ok(3)
}

/// Each information symbol alone, which shows every parity symbol that it takes part in.
fn single_symbols(q: u32, n: u32, random: &mut Random) -> Verdict {
    let mut tried = 0;
    for shape in [Shape::new(q, n, 32), random.sloped(q, n, 32)] {
        for k in 0..shape.data_len() {
            let mut data = vec![0; shape.data_len()];
            data[k] = random.nonzero_symbol(shape);
            expect_reference(Call::on_library, &encode(shape, &data, random))?;
            tried += 1;
        }
    }
    Ok(tried)
}
