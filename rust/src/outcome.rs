use crate::refusal::numbered;
use crate::Refusal;
use core::fmt;

/// A way of reading a word that arrives.
#[derive(Clone, Copy, Debug, PartialEq, Eq, Hash)]
#[non_exhaustive]
pub enum Way {
    /// Undoes damage to at most n - 1 symbols that no check hides, as [`decode`](crate::decode) does.
    Clean = 0,
    /// Undoes any damage to at most n/2 symbols, as [`decode_majority`](crate::decode_majority) does.
    Vote = 1,
    /// Undoes any damage to at most two symbols, as [`decode_two`](crate::decode_two) does.
    Two = 2,
}

impl Way {
    /// Its number, by which the library knows it.
    pub const fn number(self) -> u32 {
        self as u32
    }

    /// The way with this number.
    pub const fn from_number(number: u32) -> Option<Way> {
        match number {
            0 => Some(Way::Clean),
            1 => Some(Way::Vote),
            2 => Some(Way::Two),
            _ => None,
        }
    }
}

/// What became of a word that arrived. It is written as a line of the program's output is.
///
/// ```
/// use shaftglimmer::{Outcome, Refusal};
///
/// assert_eq!(Outcome::Again { page: 1, changed: 2 }.to_string(), "again 1 2");
/// assert_eq!(Outcome::Refused(Refusal::Uncorrectable).to_string(), "refused 4 0");
/// ```
#[derive(Clone, Copy, Debug, PartialEq, Eq, Hash)]
pub enum Outcome {
    /// The page had not come yet. Its marks are counted.
    Taken {
        /// The page's number.
        page: u32,
        /// How many symbols of the word were restored.
        changed: u32,
    },
    /// The page has come before. Nothing is counted twice.
    Again {
        /// The page's number.
        page: u32,
        /// How many symbols of the word were restored.
        changed: u32,
    },
    /// The word was refused. Word and session are as they were.
    Refused(Refusal),
}

impl Outcome {
    /// Its three numbers: 0 taken, 1 again, 2 refused; the page's or the refusal's number; the symbols changed.
    pub const fn to_values(self) -> [u32; 3] {
        match self {
            Outcome::Taken { page, changed } => [0, page, changed],
            Outcome::Again { page, changed } => [1, page, changed],
            Outcome::Refused(refusal) => [2, refusal.number(), 0],
        }
    }

    /// The outcome that the library has written.
    pub(crate) fn written(values: &[u32]) -> Outcome {
        match *values {
            [0, page, changed] => Outcome::Taken { page, changed },
            [1, page, changed] => Outcome::Again { page, changed },
            [_, number, _] => Outcome::Refused(numbered(number)),
            _ => Outcome::Refused(Refusal::Length),
        }
    }
}

impl fmt::Display for Outcome {
    fn fmt(&self, f: &mut fmt::Formatter<'_>) -> fmt::Result {
        let name = match self {
            Outcome::Taken { .. } => "taken",
            Outcome::Again { .. } => "again",
            Outcome::Refused(_) => "refused",
        };
        let [_, number, changed] = self.to_values();
        write!(f, "{name} {number} {changed}")
    }
}

/// What became of each word of a bundle, first word first.
#[derive(Clone, Copy, Debug, PartialEq, Eq)]
pub struct Outcomes {
    values: [u32; Outcomes::VALUES],
    words: usize,
}

impl Outcomes {
    /// How many words a bundle has at most.
    pub const MOST: usize = 64;

    /// How many numbers the outcomes of a bundle are.
    pub const VALUES: usize = 3 * Outcomes::MOST;

    /// Of so many words, from the numbers that the library has written.
    pub(crate) fn written(values: [u32; Outcomes::VALUES], words: usize) -> Outcomes {
        Outcomes { values, words }
    }

    /// How many words the bundle has.
    pub const fn len(&self) -> usize {
        self.words
    }

    /// Whether the bundle has no word. The library takes no such bundle.
    pub const fn is_empty(&self) -> bool {
        self.words == 0
    }

    /// The outcome of the word with this number, counted from 0.
    pub fn get(&self, word: usize) -> Option<Outcome> {
        self.iter().nth(word)
    }

    /// The outcomes in the order of the words.
    pub fn iter(&self) -> impl ExactSizeIterator<Item = Outcome> + DoubleEndedIterator + '_ {
        self.values.chunks_exact(3).take(self.words).map(Outcome::written)
    }

    /// Three numbers for each word, as [`Outcome::to_values`] has them, and zeros behind the last word.
    pub const fn as_values(&self) -> &[u32; Outcomes::VALUES] {
        &self.values
    }
}
