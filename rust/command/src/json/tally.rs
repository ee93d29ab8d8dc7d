//! A tally, written as it comes.

use super::{entry, lines, object, or_null, text};
use crate::capture::Fault;
use crate::sentences::quoted;
use shaftglimmer::{Outcome, Session, Shape};

/// Up to the first answer.
pub fn beginning(source: &str, way: &str, shape: Option<&Shape>) -> String {
    let numbers = |shape: &Shape| object(&[entry("q", shape.q()), entry("n", shape.n()), entry("b", shape.b())]);
    let entries = [
        entry("source", text(source)),
        entry("way", text(way)),
        entry("shape", or_null(shape.map(numbers))),
        "\"answers\": [".to_string(),
    ];
    format!("{{\n{}", entries.join(",\n"))
}

/// A word's answer, with its line of the capture.
pub fn answer(first: bool, line: u64, outcome: Outcome) -> String {
    let said = outcome.to_string();
    let kind = said.split(' ').next().unwrap_or_default();
    let (page, fixed, refusal) = match outcome {
        Outcome::Taken { page, changed } | Outcome::Again { page, changed } => (Some(page), changed, None),
        Outcome::Refused(refusal) => (None, 0, Some(refusal.number())),
    };
    let number = |number: Option<u32>| or_null(number.map(|number| number.to_string()));
    let entries = [
        entry("line", line),
        entry("outcome", text(kind)),
        entry("page", number(page)),
        entry("fixed", fixed),
        entry("refusal", number(refusal)),
    ];
    format!("{}\n{}", if first { "" } else { "," }, object(&entries))
}

/// What follows the answers: how many words were taken, again and refused, then the counts or the fault.
pub fn ending([taken, again, refused]: [u64; 3], tally: Result<&Session, &Fault>) -> String {
    let calls = tally.ok().map(|session| lines(session.tally().map(|(function, calls)| count(function, calls))));
    let entries = [
        entry("words", taken + again + refused),
        entry("taken", taken),
        entry("again", again),
        entry("refused", refused),
        entry("fault", or_null(tally.err().map(fault))),
        entry("functions", or_null(calls)),
    ];
    format!("\n],\n{}\n}}\n", entries.join(",\n"))
}

fn count(function: u8, calls: u32) -> String {
    object(&[entry("function", function), entry("calls", calls)])
}

/// A fault in the first three lines.
pub fn fault(fault: &Fault) -> String {
    let line = or_null(fault.line.map(|line| line.to_string()));
    object(&[
        entry("line", line),
        entry("refusal", fault.refusal.number()),
        entry("text", text(&quoted(fault.expected()))),
    ])
}
