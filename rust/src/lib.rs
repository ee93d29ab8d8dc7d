#![doc = include_str!("../README.md")]
#![no_std]
#![deny(missing_docs)]
#![warn(clippy::undocumented_unsafe_blocks, clippy::panic, clippy::unwrap_used, clippy::expect_used)]
#![warn(clippy::indexing_slicing, clippy::arithmetic_side_effects)]

#[cfg(feature = "alloc")]
extern crate alloc;
#[cfg(feature = "std")]
extern crate std;

pub mod bytes;
mod coverage;
mod lines;
mod outcome;
mod page;
mod refusal;
mod session;
mod shape;
mod sys;
mod words;

pub use coverage::Coverage;
#[cfg(feature = "alloc")]
pub use lines::parse_line;
pub use lines::{parse_line_with, LINE_MOST};
pub use outcome::{Outcome, Outcomes, Way};
#[cfg(feature = "alloc")]
pub use page::write_page;
pub use page::{parse_page, write_page_with, Marks, Page};
pub use refusal::Refusal;
pub use session::Session;
pub use shape::Shape;
pub use words::{
    check, decode, decode_majority, decode_nearest, decode_two, encode_with, extract_with, fill_with, looked_with,
    restore_with,
};
#[cfg(feature = "alloc")]
pub use words::{encode, extract, fill, looked, restore};
