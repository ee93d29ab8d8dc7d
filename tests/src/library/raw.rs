//! Calls by hand, of functions whose memory the crate keeps to itself, or whose lists and numbers it does not let
//! through: what is lent has old numbers in it, and lists have any length.

use super::{as_bytes, Fenced};
use crate::call::{After, Call, Entry};

extern "C" {
    fn shaftglimmer_marks(shape: *const u32, data: *const u32, _: usize, marks: *mut u32, _: usize) -> u32;
    fn shaftglimmer_fresh(shape: *const u32, session: *mut u32) -> u32;
    fn shaftglimmer_bill(session: *const u32, prices: *const u32, _: usize) -> u64;
    fn shaftglimmer_cover(session: *const u32, bytes: *mut u8, _: usize) -> u32;
    fn shaftglimmer_arrive(
        session: *mut u32,
        way: u32,
        word: *mut u32,
        _: usize,
        outcome: *mut u32,
        scratch: *mut u32,
        _: usize,
    ) -> u32;
    fn shaftglimmer_arrive_all(
        session: *mut u32,
        way: u32,
        words: *mut u32,
        _: usize,
        outcomes: *mut u32,
        _: usize,
        scratch: *mut u32,
        _: usize,
    ) -> u32;
}

impl Call {
    /// By hand, where the entry is one of these.
    pub(super) fn by_hand(&self) -> Option<After> {
        let shape = self.shape.values();
        let mut slices: Vec<Fenced<u32>> = self.slices.iter().map(|slice| Fenced::new(slice)).collect();
        let mut lent: Vec<&mut [u32]> = slices.iter_mut().map(Fenced::lend).collect();
        // SAFETY: each pointer and length is that of a live slice, exclusively lent where the function writes. A
        // session has 1,292 numbers and an outcome three, which `Call::is_fixed` is about. The functions keep no
        // pointer.
        let answer = match (self.entry, &mut lent[..]) {
            (Entry::Marks, [data, marks]) => unsafe {
                shaftglimmer_marks(shape.as_ptr(), data.as_ptr(), data.len(), marks.as_mut_ptr(), marks.len()).into()
            },
            (Entry::Fresh, [session]) => unsafe { shaftglimmer_fresh(shape.as_ptr(), session.as_mut_ptr()).into() },
            (Entry::Bill, [session, prices]) => unsafe {
                shaftglimmer_bill(session.as_ptr(), prices.as_ptr(), prices.len())
            },
            (Entry::Cover, [session, bytes]) => as_bytes(bytes, |bytes| unsafe {
                shaftglimmer_cover(session.as_ptr(), bytes.as_mut_ptr(), bytes.len()).into()
            }),
            (Entry::Arrive, [session, word, scratch, outcome]) => unsafe {
                let (session, outcome) = (session.as_mut_ptr(), outcome.as_mut_ptr());
                let (word, scratch) = ((word.as_mut_ptr(), word.len()), (scratch.as_mut_ptr(), scratch.len()));
                shaftglimmer_arrive(session, self.number, word.0, word.1, outcome, scratch.0, scratch.1).into()
            },
            (Entry::Batch, [session, words, scratch, outcomes]) => unsafe {
                let (words, scratch) = ((words.as_mut_ptr(), words.len()), (scratch.as_mut_ptr(), scratch.len()));
                let (session, outcomes) = (session.as_mut_ptr(), (outcomes.as_mut_ptr(), outcomes.len()));
                shaftglimmer_arrive_all(
                    session, self.number, words.0, words.1, outcomes.0, outcomes.1, scratch.0, scratch.1,
                )
                .into()
            },
            _ => return None,
        };
        Some(After { answer, slices: slices.into_iter().map(Fenced::take_back).collect() })
    }
}
