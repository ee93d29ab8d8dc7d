//! The library's functions as it exports them, each declared once, with a safe wrapper.
//!
//! A slice crosses as a pointer and a length in elements, what has one length only as a plain pointer. No function has
//! a precondition on what it is given: each answers every input. So a wrapper has nothing to test.

use crate::{Session, Shape};

/// A lent slice, by what the function may do with it.
macro_rules! lent {
    (const $element:ty) => {
        &[$element]
    };
    (mut $element:ty) => {
        &mut [$element]
    };
}

macro_rules! pointer {
    (const $slice:ident) => {
        $slice.as_ptr()
    };
    (mut $slice:ident) => {
        $slice.as_mut_ptr()
    };
}

/// `wrapper = exported(plain: type, ..; slice: *const element, ..; fixed: type; last: *mut element) -> answer`: what
/// crosses as it is, slices, what crosses as it is behind them, and a slice behind that. Of a slice only the pointer is
/// named; its length goes with it.
macro_rules! exported {
    ($($wrapper:ident = $name:ident(
        $($plain:ident: $type:ty),* $(; $($slice:ident: *$access:tt $element:ty),+
        $(; $fixed:ident: $fixed_type:ty $(; $last:ident: *$last_access:tt $last_element:ty)?)?)?
    ) -> $answer:ty;)*) => {
        extern "C" {
            $(fn $name(
                $($plain: $type,)* $($($slice: *$access $element, _: usize,)+
                $($fixed: $fixed_type, $($last: *$last_access $last_element, _: usize)?)?)?
            ) -> $answer;)*
        }
        $(pub(crate) fn $wrapper(
            $($plain: $type,)* $($($slice: lent!($access $element),)+
            $($fixed: $fixed_type, $($last: lent!($last_access $last_element))?)?)?
        ) -> $answer {
            // SAFETY: every pointer is that of a live reference, and every length that of its slice, exclusively lent
            // where the function writes. They are aligned and not null, also where a slice is empty. The function
            // writes nothing but numbers, of which any is valid there, and keeps no pointer.
            unsafe {
                $name($($plain,)* $($(pointer!($access $slice), $slice.len(),)+
                    $($fixed, $(pointer!($last_access $last), $last.len())?)?)?)
            }
        })*
    };
}

exported! {
    parse_line = shaftglimmer_parse_line(; line: *const u8; values: &mut [u32; 1024]) -> u32;
    read_word = shaftglimmer_read_word(q: u32, n: u32, b: u32; word: *mut u8) -> u32;
    read_page = shaftglimmer_read_page(q: u32, n: u32, b: u32; data: *const u8) -> u32;
    encode = shaftglimmer_encode(shape: &Shape; data: *const u32, word: *mut u32, scratch: *mut u32) -> u32;
    extract = shaftglimmer_extract(shape: &Shape; word: *const u32, data: *mut u32, scratch: *mut u32) -> u32;
    decode = shaftglimmer_decode(shape: &Shape; word: *mut u32) -> u32;
    decode_majority = shaftglimmer_decode_majority(shape: &Shape; word: *mut u32) -> u32;
    decode_two = shaftglimmer_decode_two(shape: &Shape; word: *mut u32) -> u32;
    decode_nearest = shaftglimmer_decode_nearest(shape: &Shape; word: *mut u32) -> u32;
    fill = shaftglimmer_fill(shape: &Shape; places: *const u32, word: *mut u32, scratch: *mut u32) -> u32;
    restore = shaftglimmer_restore(shape: &Shape; places: *const u32, word: *mut u32, scratch: *mut u32) -> u32;
    check = shaftglimmer_check(shape: &Shape; received: *const u32, proposed: *const u32) -> u32;
    looked = shaftglimmer_looked(shape: &Shape; word: *const u32, looked: *mut u32) -> u32;
    parse_page = shaftglimmer_parse_page(shape: &Shape; data: *const u32) -> u32;
    write_page = shaftglimmer_write_page(shape: &Shape, page: u32; marks: *const u32, data: *mut u32) -> u32;
    fresh = shaftglimmer_fresh(shape: &Shape, session: &mut Session) -> u32;
    count = shaftglimmer_count(session: &Session, function: u32) -> u64;
    arrive = shaftglimmer_arrive(
        session: &mut Session, way: u32; word: *mut u32; outcome: &mut [u32; 3]; scratch: *mut u32
    ) -> u32;
    arrive_all = shaftglimmer_arrive_all(
        session: &mut Session, way: u32; words: *mut u32, outcomes: *mut u32, scratch: *mut u32
    ) -> u32;
    bill = shaftglimmer_bill(session: &Session; prices: *const u32) -> u64;
    cover = shaftglimmer_cover(session: &Session; bytes: *mut u8) -> u32;
    word_length = shaftglimmer_word_length(shape: &Shape) -> u32;
    data_length = shaftglimmer_data_length(shape: &Shape) -> u32;
    scratch_length = shaftglimmer_scratch_length(shape: &Shape) -> u32;
}
