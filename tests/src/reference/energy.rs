//! The energy of a run: calls times price.

use super::page::{FUNCTIONS, IDLE};
use super::session::Session;
use super::shape::Refusal;

/// Prices are in thousandths of a picojoule a call; whole picojoules, rounded up once.
pub fn bill(session: &Session, prices: &[u32]) -> Result<u64, Refusal> {
    session.judge()?;
    if prices.len() != FUNCTIONS {
        return Err(Refusal::Length);
    }
    let costs = session.calls.iter().zip(prices).skip(IDLE as usize + 1);
    let thousandths: u128 = costs.map(|(&calls, &price)| u128::from(calls) * u128::from(price)).sum();
    match u64::try_from(thousandths) {
        Ok(thousandths) => Ok(thousandths.div_ceil(1000)),
        Err(_) => Err(Refusal::Bill),
    }
}
