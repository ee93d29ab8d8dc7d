//! Where an input comes from.

use crate::arguments::shown;
use crate::complaint::Complaint;
use crate::date::date;
use crate::lines::Lines;
use std::ffi::OsStr;
use std::fs::File;
use std::io::{self, Read};

pub struct Source {
    /// As it is shown.
    pub name: String,
    /// When the file was last written. Standard input has no date, nor has what is no plain file.
    pub date: Option<String>,
    pub lines: Lines,
}

impl Source {
    /// The file with this name; without one, or with `-`, standard input.
    pub fn open(file: Option<&OsStr>) -> Result<Source, Complaint> {
        match file {
            Some(file) if file != "-" => Source::named(file),
            _ => Ok(Source::new("standard input".to_string(), None, Box::new(io::stdin()))),
        }
    }

    fn named(file: &OsStr) -> Result<Source, Complaint> {
        let name = shown(file);
        let input = File::open(file).map_err(|error| Complaint::of(&name, error))?;
        let written = input.metadata().ok().filter(|about| about.is_file()).and_then(|about| about.modified().ok());
        Ok(Source::new(name, written.and_then(date), Box::new(input)))
    }

    fn new(name: String, date: Option<String>, input: Box<dyn Read>) -> Source {
        let lines = Lines::new(&name, input);
        Source { name, date, lines }
    }
}
