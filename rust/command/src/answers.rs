//! What became of the words, added up.

use crate::ranges::{extend, ranges, Ranges};
use crate::run::Run;
use shaftglimmer::{Outcome, Refusal};

pub const PAGES: usize = 1024;
/// Reading restores at most n - 1 symbols of a word, and n is at most 8.
pub const MOST_RESTORED: usize = 7;
/// Three lines stand before the words of a capture.
const LINES_BEFORE: u64 = 3;
/// Of so many ranges of refused lines the numbers are kept.
const KEPT: usize = 12;

/// The words that were refused with one number.
#[derive(Clone, Default)]
pub struct Refused {
    pub words: u64,
    /// Where the first of them stand in the capture.
    pub lines: Ranges,
    /// How many more there are.
    pub more: u64,
}

pub struct Answers {
    pub taken: u64,
    pub again: u64,
    pub came: [bool; PAGES],
    /// Words that were not refused, by the symbols restored in them.
    pub restored: [u64; MOST_RESTORED + 1],
    /// By number.
    pub refused: Vec<Refused>,
    pub run: Run,
}

impl Answers {
    pub fn new() -> Answers {
        let refused = vec![Refused::default(); Refusal::ALL.len() + 1];
        Answers { taken: 0, again: 0, came: [false; PAGES], restored: [0; MOST_RESTORED + 1], refused, run: Run::new() }
    }

    /// One word more. The answers before it decide whether its page can be taken, or come again.
    pub fn add(&mut self, outcome: Outcome) -> Result<(), String> {
        let line = self.words() + 1 + LINES_BEFORE;
        match outcome {
            Outcome::Taken { page, changed } => {
                if std::mem::replace(&mut self.came[page as usize], true) {
                    return Err(format!("page {page} was taken before"));
                }
                self.taken += 1;
                self.read(changed);
            }
            Outcome::Again { page, .. } if !self.came[page as usize] => {
                return Err(format!("page {page} was not taken before"))
            }
            Outcome::Again { changed, .. } => {
                self.again += 1;
                self.read(changed);
            }
            Outcome::Refused(refusal) => {
                self.refused[refusal.number() as usize].add(line);
                self.run.add(None);
            }
        }
        Ok(())
    }

    fn read(&mut self, restored: u32) {
        self.restored[restored as usize] += 1;
        self.run.add(Some(restored.into()));
    }

    /// The refusals that came, each with its words.
    pub fn refused(&self) -> impl Iterator<Item = (Refusal, &Refused)> {
        Refusal::ALL.into_iter().zip(&self.refused[1..]).filter(|(_, refused)| refused.words > 0)
    }

    pub fn refusals(&self) -> u64 {
        self.refused.iter().map(|refused| refused.words).sum()
    }

    pub fn words(&self) -> u64 {
        self.taken + self.again + self.refusals()
    }

    /// Symbols restored in all words.
    pub fn symbols(&self) -> u64 {
        self.restored.iter().zip(0..).map(|(words, symbols)| words * symbols).sum()
    }

    /// Words in which something was restored.
    pub fn damaged(&self) -> u64 {
        self.restored[1..].iter().sum()
    }

    /// The highest page that came.
    pub fn highest(&self) -> Option<usize> {
        self.came.iter().rposition(|&came| came)
    }

    /// The pages up to the highest that did come, or did not.
    pub fn pages(&self, came: bool) -> Ranges {
        let up_to = self.highest().map_or(0, |page| page + 1);
        ranges((0..up_to).filter(|&page| self.came[page] == came).map(|page| page as u64))
    }
}

impl Refused {
    fn add(&mut self, line: u64) {
        self.words += 1;
        let joins = self.lines.last().is_some_and(|&(_, last)| last + 1 == line);
        if self.more == 0 && (joins || self.lines.len() < KEPT) {
            extend(&mut self.lines, line);
        } else {
            self.more += 1;
        }
    }
}
