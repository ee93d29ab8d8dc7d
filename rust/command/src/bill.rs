//! The bill of a run. The sum and its rounding are the proved library's.

use crate::answers::PAGES;
use crate::lists::Prices;
use crate::tally::{Tally, FUNCTIONS};
use shaftglimmer::{Refusal, Session};
use std::cmp::Reverse;

/// What a function that was called adds to the bill.
pub struct Part {
    pub function: usize,
    pub calls: u32,
    /// Thousandths of a picojoule for a call. None: the list has none, and the function adds nothing.
    pub price: Option<u32>,
    /// Calls times price.
    pub thousandths: u64,
}

pub struct Bill {
    /// The dearest first; of equal ones the lower number.
    pub parts: Vec<Part>,
    /// Whole picojoules, rounded up once, by the library.
    pub picojoules: Result<u64, Refusal>,
}

impl Bill {
    pub fn new(tally: &Tally, prices: &Prices) -> Bill {
        let calls = tally.counts();
        let priced = |function: usize| {
            let (calls, price) = (calls[function], prices[function]);
            Part { function, calls, price, thousandths: u64::from(calls) * u64::from(price.unwrap_or(0)) }
        };
        let mut parts: Vec<Part> = (1..FUNCTIONS).map(priced).filter(|part| part.calls > 0).collect();
        parts.sort_by_key(|part| (Reverse(part.thousandths), part.function));
        let mut lent = [0; FUNCTIONS];
        lent.iter_mut().zip(prices).for_each(|(lent, price)| *lent = price.unwrap_or(0));
        let picojoules = Session::from_values(&values(tally)).and_then(|session| session.bill(&lent));
        Bill { parts, picojoules }
    }

    /// The exact sum before it is rounded, in thousandths of a picojoule.
    pub fn thousandths(&self) -> u128 {
        self.parts.iter().map(|part| u128::from(part.thousandths)).sum()
    }

    /// Functions that were called and have no price, by rising number.
    pub fn unpriced(&self) -> Vec<u64> {
        let mut functions: Vec<u64> =
            self.parts.iter().filter(|part| part.price.is_none()).map(|part| part.function as u64).collect();
        functions.sort_unstable();
        functions
    }
}

/// The session that such a tally comes from, as 1,292 values: shape, the two figures, page marks, counts. A bill does
/// not depend on the shape, and the tally does not tell it, so it is any lawful one.
fn values(tally: &Tally) -> [u32; 1292] {
    const SHAPE: [u32; 10] = [3, 2, 8, 0, 1, 2, 3, 4, 5, 6];
    let came = &tally.answers.came;
    let pages = came.iter().filter(|&&came| came).count();
    let lowest = came.iter().position(|&came| !came).unwrap_or(PAGES);
    let mut values = [0; 1292];
    values[..10].copy_from_slice(&SHAPE);
    values[10] = pages as u32;
    values[11] = lowest as u32;
    for (mark, &came) in values[12..].iter_mut().zip(came) {
        *mark = came.into();
    }
    values[12 + PAGES..].copy_from_slice(&tally.counts());
    values
}
