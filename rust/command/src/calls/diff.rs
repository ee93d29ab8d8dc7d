//! `shaftglimmer diff`: two tallies compared.

use super::{write, Call, Form, DONE};
use crate::arguments::Arguments;
use crate::comparison::{Comparison, Side};
use crate::complaint::Complaint;
use crate::source::Source;
use crate::{html, json, lists, sentences, tally, text};
use std::ffi::OsStr;

pub const CALL: Call =
    Call { name: "diff", usage: USAGE, options: &[("--names", 1), ("--text", 0), ("--json", 0)], run };

const USAGE: &str = "\
usage: shaftglimmer diff [--names FILE] [--text | --json] BEFORE AFTER

Compares two tallies, or captures, which are tallied first: which functions are
called more often, or less; which are new, or gone; their shares of all calls.
One of the two may be '-', standard input. The comparison is an HTML page on
standard output.

  --names FILE  names of functions: number, space, name, a line each
  --text        plain text of at most 80 columns instead of a page
  --json        the same figures for a program
  --help, -h    this text
  --version     the version

The exit status is 0 if there is a comparison, and 2 if not.
";

fn run(arguments: &Arguments) -> Result<u8, Complaint> {
    let form = Form::asked(arguments)?;
    let [before, after] = &arguments.plain[..] else {
        return Err(Complaint::of("diff", "two tallies are compared, so two files are named"));
    };
    if before == "-" && after == "-" {
        return Err(Complaint::of("-", "standard input can be one of the two, not both"));
    }
    let names = lists::names(arguments.value("--names"))?;
    let comparison = Comparison::new([side(before)?, side(after)?], names);
    write(&match form {
        Form::Page => html::comparison(&comparison),
        Form::Text => text::comparison(&comparison),
        Form::Json => json::comparison(&comparison),
    })?;
    Ok(DONE)
}

/// What is no tally has no calls to compare.
fn side(file: &OsStr) -> Result<Side, Complaint> {
    let source = Source::open(Some(file))?;
    let tally = tally::read(source.lines)?;
    match tally.calls {
        Ok(calls) => Ok(Side { source: source.name, date: source.date, answers: tally.answers, calls }),
        Err(lack) => Err(Complaint::of(&source.name, sentences::lacking(&lack).join(" "))),
    }
}
