//! The words in their order, in parts of equal length: how much was restored in each.

/// Beyond this many parts each two become one.
pub const MOST: usize = 128;

/// Some words that came one after another.
#[derive(Clone, Copy, Default, Debug, PartialEq, Eq)]
pub struct Part {
    /// The first word, counted from 1.
    pub first: u64,
    pub words: u64,
    pub refused: u64,
    /// Symbols, in all words that were not refused.
    pub restored: u64,
}

impl Part {
    pub fn last(&self) -> u64 {
        self.first + self.words - 1
    }

    /// Words that were not refused.
    pub fn read(&self) -> u64 {
        self.words - self.refused
    }

    /// Symbols restored for each word read.
    pub fn rate(&self) -> f64 {
        self.restored as f64 / self.read().max(1) as f64
    }

    fn join(self, next: Part) -> Part {
        Part {
            first: self.first,
            words: self.words + next.words,
            refused: self.refused + next.refused,
            restored: self.restored + next.restored,
        }
    }
}

/// Every part but the last has `length` words.
pub struct Run {
    length: u64,
    parts: Vec<Part>,
}

impl Run {
    pub fn new() -> Run {
        Run { length: 1, parts: vec![] }
    }

    /// One word more: symbols restored, or None if it was refused.
    pub fn add(&mut self, restored: Option<u64>) {
        let first = self.parts.last().map_or(1, |part| part.last() + 1);
        let word = Part { first, words: 1, refused: restored.is_none().into(), restored: restored.unwrap_or(0) };
        match self.parts.last_mut() {
            Some(part) if part.words < self.length => *part = part.join(word),
            _ => self.parts.push(word),
        }
        if self.parts.len() > MOST {
            self.parts = joined(&self.parts, 2);
            self.length *= 2;
        }
    }

    pub fn parts(&self) -> &[Part] {
        &self.parts
    }

    /// The same in at most this many parts.
    pub fn coarse(&self, most: usize) -> Vec<Part> {
        joined(&self.parts, self.parts.len().div_ceil(most).max(1))
    }
}

/// The part with the most symbols for each word read, or an empty one.
pub fn highest(parts: &[Part]) -> Part {
    let higher = |high: Part, part: Part| if part.rate() > high.rate() { part } else { high };
    parts.iter().copied().reduce(higher).unwrap_or_default()
}

fn joined(parts: &[Part], times: usize) -> Vec<Part> {
    let join = |some: &[Part]| some[1..].iter().fold(some[0], |sum, &part| sum.join(part));
    parts.chunks(times).map(join).collect()
}
