//! The session: which pages have come, the two figures that follow from them, and how often each
//! function was called.

use super::double::decode_two;
use super::page::{read_page, FUNCTIONS, IDLE, PAGES};
use super::reader::decode;
use super::shape::{Refusal, Shape, SHAPE_LEN};
use super::voter::decode_majority;
use super::writer::information;

/// Where a session as numbers has what: its shape's values first, then the two figures, a mark for each
/// page, a count for each function.
pub const PAGES_AT: usize = SHAPE_LEN;
pub const LOWEST_AT: usize = PAGES_AT + 1;
pub const MARKS_AT: usize = LOWEST_AT + 1;
pub const CALLS_AT: usize = MARKS_AT + PAGES;
pub const SESSION_LEN: usize = CALLS_AT + FUNCTIONS;

/// How many pages are taken, and the lowest page number that is not, 1024 when all are.
#[derive(Clone, Copy, Debug, PartialEq, Eq)]
pub struct Figures {
    pub pages: u32,
    pub lowest: u32,
}

impl Figures {
    /// What the marks say.
    pub fn of(taken: &[bool; PAGES]) -> Figures {
        let pages = taken.iter().filter(|&&yes| yes).count();
        let lowest = taken.iter().position(|&yes| !yes).unwrap_or(PAGES);
        Figures { pages: pages as u32, lowest: lowest as u32 }
    }
}

/// The way of reading clean damage, by which the program reads.
pub const CLEAN: u32 = 0;

/// The way of reading by vote.
pub const VOTE: u32 = 1;

/// The way of reading two wrong symbols, which takes three directions.
pub const TWO: u32 = 2;

/// Numbers of ways are below this.
pub const WAYS: u32 = 3;

/// Numbers of the ways that can be used with the shape are below this.
pub fn ways_of(shape: Shape) -> u32 {
    if shape.n < 3 {
        TWO
    } else {
        WAYS
    }
}

/// How many words a bundle has at most, and how long its list of outcomes is.
pub const BUNDLE: usize = 64;
pub const OUTCOMES_LEN: usize = 3 * BUNDLE;

/// Restores a word and gives the number of symbols changed.
type Read = fn(Shape, &mut [u32]) -> Result<u32, Refusal>;

/// The way of reading that an arrival names. A number that is none is 1, whatever the session.
fn reader(way: u32) -> Result<Read, Refusal> {
    match way {
        CLEAN => Ok(decode),
        VOTE => Ok(decode_majority),
        TWO => Ok(decode_two),
        _ => Err(Refusal::Shape),
    }
}

#[derive(Clone, PartialEq, Eq)]
pub struct Session {
    pub shape: Shape,
    pub figures: Figures,
    pub taken: [bool; PAGES],
    pub calls: [u32; FUNCTIONS],
}

#[derive(Clone, Copy, Debug, PartialEq, Eq)]
pub enum Outcome {
    Taken { page: u32, corrected: u32 },
    Again { page: u32, corrected: u32 },
    Refused(Refusal),
}

impl Outcome {
    /// 0 taken, 1 again, 2 refused; page or refusal number; symbols changed.
    pub fn values(self) -> [u32; 3] {
        match self {
            Outcome::Taken { page, corrected } => [0, page, corrected],
            Outcome::Again { page, corrected } => [1, page, corrected],
            Outcome::Refused(refusal) => [2, refusal.number(), 0],
        }
    }
}

impl Session {
    pub fn fresh(shape: Shape) -> Result<Session, Refusal> {
        shape.judge()?;
        let figures = Figures { pages: 0, lowest: 0 };
        Ok(Session { shape, figures, taken: [false; PAGES], calls: [0; FUNCTIONS] })
    }

    /// Tests 1, 18 and 11, with which every entry begins that is given a session.
    pub(super) fn judge(&self) -> Result<(), Refusal> {
        self.shape.judge()?;
        if self.figures == Figures::of(&self.taken) {
            Ok(())
        } else {
            Err(Refusal::Figures)
        }
    }

    /// Turns a page to yes; the figures follow.
    pub fn take(&mut self, page: u32) {
        self.taken[page as usize] = true;
        self.figures = Figures::of(&self.taken);
    }

    pub fn count(&self, function: u32) -> Result<u32, Refusal> {
        self.judge()?;
        self.calls.get(function as usize).copied().ok_or(Refusal::Function)
    }

    pub fn arrive(&mut self, way: u32, word: &mut [u32], scratch: &mut [u32]) -> Outcome {
        self.try_arrive(way, word, scratch).unwrap_or_else(Outcome::Refused)
    }

    /// A bundle of words: the single arrivals, first word first. A refusal is of the whole call and changes nothing.
    pub fn arrive_all(
        &mut self,
        way: u32,
        words: &mut [u32],
        scratch: &mut [u32],
        outcomes: &mut [u32],
    ) -> Result<(), Refusal> {
        reader(way)?;
        self.judge()?;
        if way >= ways_of(self.shape) {
            return Err(Refusal::Directions);
        }
        let size = self.shape.word_len();
        let whole = words.len() % size == 0 && (1..=BUNDLE).contains(&(words.len() / size));
        if !whole || scratch.len() != self.shape.scratch_len() || outcomes.len() != OUTCOMES_LEN {
            return Err(Refusal::Length);
        }
        outcomes.fill(0);
        for (word, values) in words.chunks_exact_mut(size).zip(outcomes.chunks_exact_mut(3)) {
            values.copy_from_slice(&self.arrive(way, word, scratch).values());
        }
        Ok(())
    }

    fn try_arrive(&mut self, way: u32, word: &mut [u32], scratch: &mut [u32]) -> Result<Outcome, Refusal> {
        let read = reader(way)?;
        self.judge()?;
        let shape = self.shape;
        if way >= ways_of(shape) {
            return Err(Refusal::Directions);
        }
        if word.len() != shape.word_len() || scratch.len() != shape.scratch_len() {
            return Err(Refusal::Length);
        }
        scratch.fill(0);
        let mut restored = word.to_vec();
        let corrected = read(shape, &mut restored)?;
        let data = information(shape, &restored);
        let head = read_page(shape, &data)?;
        let page = head.page;
        if self.taken[page as usize] {
            word.copy_from_slice(&restored);
            return Ok(Outcome::Again { page, corrected });
        }
        self.calls = add_marks(self.calls, &data[2..2 + head.marks])?;
        self.take(page);
        word.copy_from_slice(&restored);
        Ok(Outcome::Taken { page, corrected })
    }

    pub fn values(&self) -> Vec<u32> {
        let mut values = self.shape.values().to_vec();
        values.extend([self.figures.pages, self.figures.lowest]);
        values.extend(self.taken.map(u32::from));
        values.extend(self.calls);
        values
    }

    /// From exactly SESSION_LEN numbers; any nonzero mark is a yes.
    pub fn from_values(values: &[u32]) -> Session {
        Session {
            shape: Shape::from_values(&values[..SHAPE_LEN]),
            figures: Figures { pages: values[PAGES_AT], lowest: values[LOWEST_AT] },
            taken: std::array::from_fn(|page| values[MARKS_AT + page] != 0),
            calls: std::array::from_fn(|function| values[CALLS_AT + function]),
        }
    }
}

/// Each mark but the idle ones adds 1 to its function's count, unless one count would pass 2^32 - 1.
fn add_marks(mut calls: [u32; FUNCTIONS], marks: &[u32]) -> Result<[u32; FUNCTIONS], Refusal> {
    for &mark in marks.iter().filter(|&&mark| mark != IDLE) {
        let count = &mut calls[mark as usize];
        *count = count.checked_add(1).ok_or(Refusal::Overflow)?;
    }
    Ok(calls)
}
