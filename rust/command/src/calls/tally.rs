//! `shaftglimmer tally`: what `tally` prints, by any way of reading.

use super::{Call, DONE, NOTHING, REFUSED};
use crate::arguments::{shown, Arguments};
use crate::capture::{Begun, Capture, Fault, Reading};
use crate::complaint::{tell, Complaint};
use crate::json;
use crate::source::Source;
use crate::tally::{FIRST_NAMES, SECOND_NAMES};
use shaftglimmer::{Outcome, Session, Way};
use std::io::{self, BufWriter, StdoutLock, Write};

pub const CALL: Call = Call { name: "tally", usage: USAGE, options: &[("--way", 1), ("--json", 0)], run };

const USAGE: &str = "\
usage: shaftglimmer tally [--way WAY] [--json] [FILE]

Reads a capture, FILE or standard input (none or '-'), restores its damaged
words, and writes what came of each, then the calls of each function.

  --way WAY   how words are read:
              clean    damage to at most n - 1 symbols that no check hides
              vote     any damage to at most n/2 symbols
              two      any damage to at most two symbols, n of 3 or more
              nearest  any damage to at most n - 1 symbols
  --json      the same for a program
  --help, -h  this text
  --version   the version

Without --way words are read the clean way, as 'tally' does.
The exit status is 0 if there is a tally and no word was refused, 1 if there is
one and words were refused, and 2 if there is none.
";

const WAYS: [(&str, Reading); 4] = [
    ("clean", Reading::By(Way::Clean)),
    ("vote", Reading::By(Way::Vote)),
    ("two", Reading::By(Way::Two)),
    ("nearest", Reading::Nearest),
];

fn run(arguments: &Arguments) -> Result<u8, Complaint> {
    let named = arguments.value("--way").map_or("clean".to_string(), shown);
    let (way, reading) = WAYS.into_iter().find(|(name, _)| *name == named).ok_or_else(|| {
        Complaint::of(&format!("--way {named}"), "there is no such way: clean, vote, two and nearest are there")
    })?;
    let mut source = Source::open(arguments.file()?)?;
    // Nothing is written before something is read.
    let first = source.lines.advance()?;
    let output = Output::new(arguments.has("--json"));
    match Capture::begin(source.lines, first, reading)? {
        Begun::Fault(fault) => at_fault(output, &source.name, way, &fault),
        Begun::Words(capture) => words(output, &source.name, way, *capture),
    }
}

fn words(mut output: Output, name: &str, way: &str, mut capture: Capture) -> Result<u8, Complaint> {
    output.begin(name, way, Some(&capture.session))?;
    loop {
        if capture.lines.waits() {
            output.flush()?;
        }
        let Some(outcome) = capture.next()? else { break };
        output.answer(capture.lines.number(), outcome)?;
    }
    output.end(&capture.session)?;
    capture.lines.tell_limit();
    Ok(if output.refused > 0 { REFUSED } else { DONE })
}

/// The first line of names and one refused line, which is about no word.
fn at_fault(mut output: Output, name: &str, way: &str, fault: &Fault) -> Result<u8, Complaint> {
    output.begin(name, way, None)?;
    output.fault(fault)?;
    let line = fault.line.unwrap_or_default();
    tell(&format!("{name}: line {line}: {}", fault.expected()));
    fault.ends.iter().for_each(|end| tell(&format!("{name}: line {line} {end}")));
    Ok(NOTHING)
}

/// Standard output, and how many words were answered in each way.
struct Output {
    output: BufWriter<StdoutLock<'static>>,
    json: bool,
    taken: u64,
    again: u64,
    refused: u64,
}

impl Output {
    fn new(json: bool) -> Output {
        Output { output: BufWriter::new(io::stdout().lock()), json, taken: 0, again: 0, refused: 0 }
    }

    fn write(&mut self, text: impl std::fmt::Display) -> Result<(), Complaint> {
        write!(self.output, "{text}").map_err(Complaint::output)
    }

    fn flush(&mut self) -> Result<(), Complaint> {
        self.output.flush().map_err(Complaint::output)
    }

    fn begin(&mut self, name: &str, way: &str, session: Option<&Session>) -> Result<(), Complaint> {
        if self.json {
            return self.write(json::tally::beginning(name, way, session.map(Session::shape)));
        }
        self.write(format_args!("{FIRST_NAMES}\n"))
    }

    fn answer(&mut self, line: u64, outcome: Outcome) -> Result<(), Complaint> {
        let first = self.taken + self.again + self.refused == 0;
        match outcome {
            Outcome::Taken { .. } => self.taken += 1,
            Outcome::Again { .. } => self.again += 1,
            Outcome::Refused(_) => self.refused += 1,
        }
        if self.json {
            return self.write(json::tally::answer(first, line, outcome));
        }
        self.write(format_args!("{outcome}\n"))
    }

    fn fault(&mut self, fault: &Fault) -> Result<(), Complaint> {
        if self.json {
            self.write(json::tally::ending([0; 3], Err(fault)))?;
        } else {
            self.write(format_args!("{}\n", Outcome::Refused(fault.refusal)))?;
        }
        self.flush()
    }

    fn end(&mut self, session: &Session) -> Result<(), Complaint> {
        if self.json {
            self.write(json::tally::ending([self.taken, self.again, self.refused], Ok(session)))?;
        } else {
            let counts = session.tally().map(|(function, calls)| format!("{function} {calls}\n"));
            self.write(format_args!("{SECOND_NAMES}\n{}", counts.collect::<String>()))?;
        }
        self.flush()
    }
}
