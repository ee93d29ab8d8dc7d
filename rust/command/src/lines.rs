//! Lines of an input, with the number of each.

use crate::complaint::{tell, Complaint};
use shaftglimmer::parse_line;
use std::fmt;
use std::io::{self, BufRead, BufReader, Read, Take};

/// A line has at most so many bytes, newline included.
const LONGEST: u64 = 16_384;
/// So much of an input is read. What follows counts as absent.
const LIMIT: u64 = u32::MAX as u64;

pub struct Lines {
    place: String,
    input: BufReader<Take<Box<dyn Read>>>,
    number: u64,
    line: Vec<u8>,
}

/// How a line ended.
#[derive(Clone, Copy, PartialEq, Eq)]
pub enum Ending {
    Newline,
    /// The input ended before the newline.
    Cut,
    /// It had too many bytes, and was skipped.
    TooLong,
    /// There was no line.
    Nothing,
}

impl Lines {
    pub fn new(place: &str, input: Box<dyn Read>) -> Lines {
        Lines { place: place.to_string(), input: BufReader::new(input.take(LIMIT)), number: 0, line: vec![] }
    }

    /// Goes on to the next line.
    pub fn advance(&mut self) -> Result<Ending, Complaint> {
        self.read().map_err(|error| Complaint::of(&self.place, error))
    }

    fn read(&mut self) -> io::Result<Ending> {
        self.line.clear();
        let read = self.input.by_ref().take(LONGEST).read_until(b'\n', &mut self.line)? as u64;
        if read == 0 {
            return Ok(Ending::Nothing);
        }
        self.number += 1;
        if self.line.last() == Some(&b'\n') {
            self.line.pop();
            return Ok(Ending::Newline);
        }
        if read < LONGEST {
            return Ok(Ending::Cut);
        }
        self.skip().map(|()| Ending::TooLong)
    }

    /// Goes on behind the next newline.
    fn skip(&mut self) -> io::Result<()> {
        while !matches!(self.line.last(), None | Some(b'\n')) {
            self.line.clear();
            self.input.by_ref().take(LONGEST).read_until(b'\n', &mut self.line)?;
        }
        self.line.clear();
        Ok(())
    }

    /// Goes on to the next line, which must have its newline. False: there is none.
    pub fn whole(&mut self) -> Result<bool, Complaint> {
        match self.advance()? {
            Ending::Newline => Ok(true),
            Ending::Cut => Err(self.fault("the last line is cut: it has no newline")),
            Ending::TooLong => Err(self.fault("the line is too long")),
            Ending::Nothing => Ok(false),
        }
    }

    /// The line without its newline.
    pub fn line(&self) -> &[u8] {
        &self.line
    }

    /// The line's number, counted from 1.
    pub fn number(&self) -> u64 {
        self.number
    }

    /// Whether the next line has to be read first.
    pub fn waits(&self) -> bool {
        !self.input.buffer().contains(&b'\n')
    }

    /// At the end: if as much was read as is read of any input, says so.
    pub fn tell_limit(&self) {
        if self.input.get_ref().limit() == 0 {
            tell(&format!("{}: {LIMIT} bytes were read, which is the limit: what follows is not counted", self.place));
        }
    }

    /// A complaint about the line.
    pub fn fault(&self, reason: impl fmt::Display) -> Complaint {
        let end = if self.line.ends_with(b"\r") { ". The line ends with a carriage return" } else { "" };
        Complaint::at(&self.place, self.number, format!("{reason}{end}"))
    }
}

/// The values that a text spells, by the proved parser: decimal, one space between two of them, no leading zeros.
pub fn values(text: &[u8]) -> Option<Vec<u32>> {
    parse_line(text).ok()
}

/// The only value that a text spells.
pub fn number(text: &[u8]) -> Option<u32> {
    match values(text)?[..] {
        [value] => Some(value),
        _ => None,
    }
}
