//! What is said on standard error when something can't be done.

use crate::clean::clean;
use std::fmt;
use std::io::{self, Write};

/// One line: where the fault is, and what it is. Nothing is said about a pipe that nobody reads any more.
#[derive(Debug)]
pub struct Complaint(Option<String>);

impl Complaint {
    /// About a file as a whole, or an argument.
    pub fn of(place: &str, reason: impl fmt::Display) -> Complaint {
        Complaint(Some(clean(format!("{place}: {reason}").as_bytes())))
    }

    /// About a line of a file, counted from 1.
    pub fn at(place: &str, line: u64, reason: impl fmt::Display) -> Complaint {
        Complaint::of(&format!("{place}: line {line}"), reason)
    }

    /// Standard output can't be written to.
    pub fn output(error: io::Error) -> Complaint {
        if error.kind() == io::ErrorKind::BrokenPipe {
            return Complaint(None);
        }
        Complaint::of("standard output", error)
    }

    pub fn said(&self) -> Option<&str> {
        self.0.as_deref()
    }
}

/// A line on standard error. Nobody is left to be told if this fails.
pub fn tell(said: &str) {
    let _ = writeln!(io::stderr(), "shaftglimmer: {said}");
}
