//! `shaftglimmer report`: a page, a text or JSON from a tally or a capture.

use super::{write, Call, Form, DONE, NOTHING};
use crate::arguments::{shown, Arguments};
use crate::bill::Bill;
use crate::complaint::{tell, Complaint};
use crate::report::Report;
use crate::source::Source;
use crate::{html, json, lists, sentences, tally, text};

pub const CALL: Call = Call {
    name: "report",
    usage: USAGE,
    options: &[("--names", 1), ("--prices", 1), ("--title", 1), ("--text", 0), ("--json", 0)],
    run,
};

const USAGE: &str = "\
usage: shaftglimmer report [--names FILE] [--prices FILE] [--title TITLE]
                           [--text | --json] [FILE]

Makes a report of a tally: what 'tally' or 'shaftglimmer tally' printed, or a
capture, which is tallied first. It is FILE, or standard input without it or
with '-'. The report is an HTML page on standard output.

  --names FILE   names of functions: number, space, name, a line each
  --prices FILE  prices of a call: number, space, thousandths of a picojoule
  --title TITLE  the title of the page
  --text         plain text of at most 80 columns instead of a page
  --json         the same figures for a program
  --help, -h     this text
  --version      the version

The exit status is 0 if there is a report of a tally, and 2 if not.
";

fn run(arguments: &Arguments) -> Result<u8, Complaint> {
    let form = Form::asked(arguments)?;
    let report = report(arguments)?;
    write(&match form {
        Form::Page => html::page(&report),
        Form::Text => text::page(&report),
        Form::Json => json::report(&report),
    })?;
    if report.tally.calls.is_ok() {
        return Ok(DONE);
    }
    tell(&format!("{}: {}", report.source, sentences::alarms(&report).join(" ")));
    Ok(NOTHING)
}

/// Everything is read before anything is written.
fn report(arguments: &Arguments) -> Result<Report, Complaint> {
    let file = arguments.file()?;
    let names = lists::names(arguments.value("--names"))?;
    let prices = arguments.value("--prices").map(lists::prices).transpose()?;
    let source = Source::open(file)?;
    let tally = tally::read(source.lines)?;
    let bill = prices.filter(|_| tally.calls.is_ok()).map(|prices| Bill::new(&tally, &prices));
    let title = arguments.value("--title").map(shown);
    Ok(Report { title, source: source.name, date: source.date, tally, names, bill })
}
