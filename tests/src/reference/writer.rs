//! Writing and data extraction.

use super::elimination::Positions;
use super::shape::{Refusal, Shape};

/// The codeword with these information symbols. XORed over all positions, symbol times column is
/// zero; so each parity symbol is the XOR of the information symbols whose column needs its column.
pub fn codeword(shape: Shape, data: &[u32]) -> Vec<u32> {
    let positions = Positions::of(shape);
    let mut word = vec![0; shape.word_len()];
    for ((&symbol, &j), sum) in data.iter().zip(&positions.information).zip(&positions.sums) {
        word[j] = symbol;
        sum.iter().for_each(|&parity| word[parity] ^= symbol);
    }
    word
}

/// The symbols on the information positions.
pub fn information(shape: Shape, word: &[u32]) -> Vec<u32> {
    Positions::of(shape).information.iter().map(|&j| word[j]).collect()
}

pub fn encode(shape: Shape, data: &[u32], scratch: &mut [u32], word: &mut [u32]) -> Result<(), Refusal> {
    judge(shape, data, scratch, word, data)?;
    word.copy_from_slice(&codeword(shape, data));
    Ok(())
}

pub fn extract(shape: Shape, word: &[u32], scratch: &mut [u32], data: &mut [u32]) -> Result<(), Refusal> {
    judge(shape, data, scratch, word, word)?;
    data.copy_from_slice(&information(shape, word));
    Ok(())
}

/// Tests 1, 18, 2 and 3 of both, 3 about the symbols that come in. The scratch is cleared past test 2.
fn judge(shape: Shape, data: &[u32], scratch: &mut [u32], word: &[u32], coming: &[u32]) -> Result<(), Refusal> {
    shape.judge()?;
    let right = (shape.data_len(), shape.scratch_len(), shape.word_len());
    if (data.len(), scratch.len(), word.len()) != right {
        return Err(Refusal::Length);
    }
    scratch.fill(0);
    if shape.all_fit(coming) {
        Ok(())
    } else {
        Err(Refusal::Width)
    }
}
