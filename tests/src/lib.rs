//! Tests and benchmark of the proved library and program, against a second implementation.

#[cfg(feature = "library")]
pub mod bench;
pub mod call;
pub mod capture;
pub mod damage;
pub mod groups;
#[cfg(feature = "library")]
mod library;
pub mod light;
pub mod process;
pub mod random;
pub mod reference;
pub mod report;
pub mod rivals;
pub mod shrink;
#[cfg(feature = "library")]
pub mod slowest;
pub mod terminal;
