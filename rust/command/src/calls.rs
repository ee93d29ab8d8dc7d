//! The calls that the command has.

pub mod diff;
pub mod record;
pub mod report;
pub mod tally;

use crate::arguments::{shown, Arguments, Known};
use crate::complaint::Complaint;
use std::ffi::OsStr;
use std::io::{self, Write};

/// Exit statuses: what was asked for is there; it is, and words were refused; it is not.
pub const DONE: u8 = 0;
pub const REFUSED: u8 = 1;
pub const NOTHING: u8 = 2;

pub struct Call {
    pub name: &'static str,
    pub usage: &'static str,
    pub options: &'static [Known],
    /// Gives the exit status.
    pub run: fn(&Arguments) -> Result<u8, Complaint>,
}

pub const CALLS: [Call; 4] = [tally::CALL, report::CALL, diff::CALL, record::CALL];

/// How a report or a comparison is written.
#[derive(Clone, Copy)]
pub enum Form {
    Page,
    Text,
    Json,
}

impl Form {
    pub fn asked(arguments: &Arguments) -> Result<Form, Complaint> {
        match (arguments.has("--text"), arguments.has("--json")) {
            (true, true) => Err(Complaint::of("--text", "--json is given too, and only one can be")),
            (true, false) => Ok(Form::Text),
            (false, true) => Ok(Form::Json),
            (false, false) => Ok(Form::Page),
        }
    }
}

pub fn write(text: &str) -> Result<u8, Complaint> {
    let mut output = io::stdout().lock();
    output.write_all(text.as_bytes()).and_then(|()| output.flush()).map_err(Complaint::output)?;
    Ok(DONE)
}

/// A number that was given as an argument.
pub fn number<N: std::str::FromStr>(argument: &OsStr, what: &str) -> Result<N, Complaint> {
    let number = argument.to_str().and_then(|text| text.parse().ok());
    number.ok_or_else(|| Complaint::of(&shown(argument), format!("{what} is a whole number")))
}
