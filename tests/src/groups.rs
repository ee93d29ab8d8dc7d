//! The groups of tests.

pub mod batches;
pub mod calls;
#[cfg(feature = "library")]
pub mod codec;
pub mod coverage;
pub mod double;
mod elsewhere;
pub mod energy;
pub mod erasures;
mod every;
mod expect;
mod faults;
pub mod figures;
pub mod idle;
pub mod looked;
pub mod nearest;
#[cfg(feature = "library")]
pub mod pages;
pub mod person;
pub mod proposals;
pub mod reference;
#[cfg(feature = "library")]
pub mod refusals;
pub mod restore;
#[cfg(feature = "library")]
pub mod sessions;
pub mod slopes;
pub mod stream;
pub mod text;
pub mod vectors;
#[cfg(feature = "library")]
pub mod views;
pub mod vote;
pub mod ways;
#[cfg(feature = "library")]
pub mod words;
