//! A second implementation, written from docs/RULES.md alone, to compare the
//! proved library with.
//!
//! It goes by the definitions and takes no short cut that the library takes: information positions
//! and the writer come from an elimination over the columns of the check matrix, and what the reader
//! proposes is accepted only if it meets the rules' definition.

pub mod brute;
pub mod checker;
pub mod coverage;
pub mod double;
pub mod elimination;
pub mod energy;
pub mod filler;
pub mod nearest;
pub mod page;
pub mod program;
pub mod reader;
pub mod restorer;
pub mod session;
pub mod shape;
pub mod square;
pub mod voter;
pub mod writer;
