//! `shaftglimmer`: tallies of captures, reports of them, comparisons, and captures to try things with.

mod answers;
mod arguments;
mod bill;
mod calls;
mod capture;
mod clean;
mod comparison;
mod complaint;
mod damage;
mod date;
mod figures;
mod html;
mod json;
mod lines;
mod lists;
mod ranges;
mod ranking;
mod report;
mod run;
mod sentences;
mod source;
mod tally;
mod text;

use arguments::{shown, Arguments, VERSION};
use calls::{write, CALLS, NOTHING};
use complaint::{tell, Complaint};
use std::env;
use std::ffi::OsString;
use std::process::ExitCode;

const USAGE: &str = "\
usage: shaftglimmer CALL [OPTION..] [ARGUMENT..]

  tally   the tally of a capture: what became of each word, calls per function
  report  a page to look at, or a text, from a tally or a capture
  diff    two tallies compared: which functions are called more, or less
  record  a capture from pages, with damage on request

'shaftglimmer CALL --help' says more of each, 'man shaftglimmer' all of it.
'shaftglimmer --version' prints the version.
";

const NAMED: &str = concat!("shaftglimmer ", env!("CARGO_PKG_VERSION"), "\n");

fn main() -> ExitCode {
    match run(env::args_os().skip(1)) {
        Ok(status) => ExitCode::from(status),
        Err(complaint) => {
            complaint.said().into_iter().for_each(tell);
            ExitCode::from(NOTHING)
        }
    }
}

/// The exit status.
fn run(mut given: impl Iterator<Item = OsString>) -> Result<u8, Complaint> {
    let Some(first) = given.next() else {
        return Err(Complaint::of("no call", "say tally, report, diff or record, or --help"));
    };
    let Some(call) = CALLS.iter().find(|call| first == *call.name) else {
        return match first.as_encoded_bytes() {
            b"--help" | b"-h" => write(USAGE),
            b"--version" => write(NAMED),
            _ => Err(Complaint::of(&shown(&first), "there is no such call: tally, report, diff and record are there")),
        };
    };
    let arguments = Arguments::read(given, call.options)?;
    if arguments.asks_for_help() {
        return write(call.usage);
    }
    if arguments.has(VERSION) {
        return write(NAMED);
    }
    (call.run)(&arguments)
}
