//! An arrival over one of the two readers.

use super::refused;
use crate::reference::page::{read_page, FUNCTIONS, IDLE, PAGES};
use crate::reference::session::{Figures, Outcome, SESSION_LEN};
use crate::reference::shape::{Refusal, Shape, SHAPE_LEN};

/// A reader, and what takes the information symbols out of a word.
#[derive(Clone, Copy)]
pub struct Way<'a> {
    pub decode: fn(Shape, &mut [u32]) -> u32,
    pub extract: &'a dyn Fn(&[u32], &mut [u32]),
}

pub struct State {
    pub shape: Shape,
    pub figures: Figures,
    pub taken: [bool; PAGES],
    pub calls: [u32; FUNCTIONS],
}

impl State {
    pub fn fresh(shape: Shape) -> State {
        let figures = Figures { pages: 0, lowest: 0 };
        State { shape, figures, taken: [false; PAGES], calls: [0; FUNCTIONS] }
    }

    /// An arrival at a session from elsewhere: test 11 after 1 and 18.
    fn arrive_tested(&mut self, way: Way, word: &mut [u32], scratch: &mut [u32]) -> Outcome {
        if self.shape.lawful() && self.figures != Figures::of(&self.taken) {
            return Outcome::Refused(Refusal::Figures);
        }
        self.arrive(way, word, scratch)
    }

    /// The word is restored only if the arrival is not refused. The figures are taken to be right.
    pub fn arrive(&mut self, way: Way, word: &mut [u32], scratch: &mut [u32]) -> Outcome {
        let shape = self.shape;
        if let Err(refusal) = shape.judge() {
            return Outcome::Refused(refusal);
        }
        if word.len() != shape.word_len() || scratch.len() != shape.scratch_len() {
            return Outcome::Refused(Refusal::Length);
        }
        scratch.fill(0);
        let mut restored = [0; 961];
        let restored = &mut restored[..word.len()];
        restored.copy_from_slice(word);
        let corrected = (way.decode)(shape, restored);
        if corrected == refused(Refusal::Width) {
            return Outcome::Refused(Refusal::Width);
        }
        if corrected >= 1 << 31 {
            return Outcome::Refused(Refusal::Uncorrectable);
        }
        let outcome = self.take_page(way, restored, corrected);
        if !matches!(outcome, Outcome::Refused(_)) {
            word.copy_from_slice(restored);
        }
        outcome
    }

    fn take_page(&mut self, way: Way, restored: &[u32], corrected: u32) -> Outcome {
        let mut data = [0; 900];
        let data = &mut data[..self.shape.data_len()];
        (way.extract)(restored, data);
        let head = match read_page(self.shape, data) {
            Ok(head) => head,
            Err(refusal) => return Outcome::Refused(refusal),
        };
        let page = head.page;
        if self.taken[page as usize] {
            return Outcome::Again { page, corrected };
        }
        let mut calls = self.calls;
        for &mark in &data[2..2 + head.marks] {
            // An idle mark adds nothing, at no cost of a branch.
            match calls[mark as usize].checked_add(u32::from(mark != IDLE)) {
                Some(count) => calls[mark as usize] = count,
                None => return Outcome::Refused(Refusal::Overflow),
            }
        }
        self.calls = calls;
        self.taken[page as usize] = true;
        self.figures.pages += 1;
        while self.taken.get(self.figures.lowest as usize) == Some(&true) {
            self.figures.lowest += 1;
        }
        Outcome::Taken { page, corrected }
    }
}

/// An arrival whose session crosses as numbers, as it does to the library: it is written back only after a
/// page was taken.
pub fn arrive(way: Way, session: &mut [u32; SESSION_LEN], word: &mut [u32], scratch: &mut [u32]) -> Outcome {
    let (shape, rest) = session.split_at_mut(SHAPE_LEN);
    let (figures, rest) = rest.split_at_mut(2);
    let (taken, calls) = rest.split_at_mut(PAGES);
    let mut state = State::fresh(Shape::from_values(shape));
    state.figures = Figures { pages: figures[0], lowest: figures[1] };
    for (yes, &number) in state.taken.iter_mut().zip(&*taken) {
        *yes = number != 0;
    }
    state.calls.copy_from_slice(calls);
    let answer = state.arrive_tested(way, word, scratch);
    if let Outcome::Taken { .. } = answer {
        figures.copy_from_slice(&[state.figures.pages, state.figures.lowest]);
        for (number, &yes) in taken.iter_mut().zip(&state.taken) {
            *number = u32::from(yes);
        }
        calls.copy_from_slice(&state.calls);
    }
    answer
}
