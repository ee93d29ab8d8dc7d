//! The coverage viewer: which functions were called at all.

use super::page::FUNCTIONS;
use super::session::Session;
use super::shape::Refusal;

/// Each function's yes or no, 1 or 0, and how many are yes. A byte stands as one number.
pub fn cover(session: &Session, bytes: &mut [u32]) -> Result<u32, Refusal> {
    session.judge()?;
    if bytes.len() != FUNCTIONS {
        return Err(Refusal::Length);
    }
    for (byte, &calls) in bytes.iter_mut().zip(&session.calls) {
        *byte = u32::from(calls != 0);
    }
    Ok(bytes.iter().sum())
}
