//! A capture: its first three lines, then its words, which the proved library reads.

use crate::complaint::Complaint;
use crate::lines::{values, Ending, Lines};
use shaftglimmer::{decode_nearest, parse_line_with, Outcome, Refusal, Session, Shape, Way};

pub const FIRST_NAMES: &[u8] = b"q n b";
const SECOND_NAMES: &[u8] = b"word";

/// The way a word is read: one of an arrival, or the nearest codeword first and then the clean way.
#[derive(Clone, Copy)]
pub enum Reading {
    By(Way),
    Nearest,
}

/// What is wrong with one of the first three lines.
pub struct Fault {
    /// None where only a tally was seen, which does not say it.
    pub line: Option<u64>,
    pub refusal: Refusal,
    /// What stands at the ends of the line and does not belong there.
    pub ends: Vec<&'static str>,
}

impl Fault {
    fn of(lines: &Lines, line: u64, ending: Ending, refusal: Refusal) -> Fault {
        let text = if ending == Ending::Newline { lines.line() } else { &[] };
        let mut ends = vec![];
        ends.extend(text.starts_with("\u{feff}".as_bytes()).then_some("begins with a byte order mark"));
        ends.extend(text.ends_with(b"\r").then_some("ends with a carriage return"));
        Fault { line: Some(line), refusal, ends }
    }

    /// What was expected in that line.
    pub fn expected(&self) -> &'static str {
        match (self.line, self.refusal) {
            (Some(1), _) => "expected 'q n b'",
            (Some(2), Refusal::Shape) => {
                "expected q one of 3, 5, 7, 11, 13, 17, 19, 23, 29, 31, \
                 n from 2 to the smaller of q and 8, b from 1 to 32"
            }
            (Some(2), _) => "expected the three values of q, n and b",
            (Some(_), _) => "expected 'word'",
            (None, refusal) => refusal.meaning(),
        }
    }
}

/// A capture whose first three lines are read.
pub struct Capture {
    pub lines: Lines,
    pub session: Session,
    reading: Reading,
    values: [u32; 1024],
    scratch: Vec<u32>,
}

pub enum Begun {
    Words(Box<Capture>),
    Fault(Fault),
}

impl Capture {
    /// From its first line on, which has been read and has ended so.
    pub fn begin(mut lines: Lines, first: Ending, reading: Reading) -> Result<Begun, Complaint> {
        if !is(&lines, first, FIRST_NAMES) {
            return Ok(Begun::Fault(Fault::of(&lines, 1, first, Refusal::Syntax)));
        }
        let second = lines.advance()?;
        let session = match shape(&lines, second).and_then(|shape| Session::fresh(&shape)) {
            Ok(session) => session,
            Err(refusal) => return Ok(Begun::Fault(Fault::of(&lines, 2, second, refusal))),
        };
        let third = lines.advance()?;
        if !is(&lines, third, SECOND_NAMES) {
            return Ok(Begun::Fault(Fault::of(&lines, 3, third, Refusal::Syntax)));
        }
        let scratch = vec![0; session.shape().scratch_length()];
        Ok(Begun::Words(Box::new(Capture { lines, session, reading, values: [0; 1024], scratch })))
    }

    /// What becomes of the next word.
    pub fn next(&mut self) -> Result<Option<Outcome>, Complaint> {
        match self.lines.advance()? {
            Ending::Nothing => Ok(None),
            Ending::Newline => Ok(Some(self.arrive())),
            Ending::Cut | Ending::TooLong => Ok(Some(Outcome::Refused(Refusal::Syntax))),
        }
    }

    fn arrive(&mut self) -> Outcome {
        let word = match parse_line_with(self.lines.line(), &mut self.values) {
            Ok(word) => word,
            Err(refusal) => return Outcome::Refused(refusal),
        };
        match self.reading {
            Reading::By(way) => self.session.arrive_with(way, word, &mut self.scratch),
            Reading::Nearest => nearest(&mut self.session, word, &mut self.scratch),
        }
    }
}

/// The nearest codeword arrives, to which the clean way changes nothing. So the changes are those of the first step.
fn nearest(session: &mut Session, word: &mut [u32], scratch: &mut [u32]) -> Outcome {
    let changed = match decode_nearest(session.shape(), word) {
        Ok(changed) => changed,
        Err(refusal) => return Outcome::Refused(refusal),
    };
    match session.arrive_with(Way::Clean, word, scratch) {
        Outcome::Taken { page, .. } => Outcome::Taken { page, changed },
        Outcome::Again { page, .. } => Outcome::Again { page, changed },
        refused => refused,
    }
}

fn is(lines: &Lines, ending: Ending, names: &[u8]) -> bool {
    ending == Ending::Newline && lines.line() == names
}

fn shape(lines: &Lines, ending: Ending) -> Result<Shape, Refusal> {
    let three = values(lines.line()).filter(|_| ending == Ending::Newline);
    match three.as_deref() {
        Some(&[q, n, b]) => Shape::new(q, n, b),
        _ => Err(Refusal::Syntax),
    }
}
