//! A report's figures.

use super::{entry, lines, list, object, or_null, ranges, tally, text, whole};
use crate::answers::Refused;
use crate::bill::{Bill, Part};
use crate::report::Report;
use crate::run;
use crate::sentences;
use crate::tally::Tally;
use shaftglimmer::Refusal;

pub fn page(report: &Report) -> String {
    let answers = &report.tally.answers;
    whole(&[
        entry("title", or_null(report.title.as_deref().map(text))),
        entry("source", text(&report.source)),
        entry("date", or_null(report.date.as_deref().map(text))),
        entry("tally", report.tally.calls.is_ok()),
        entry("alarms", list(sentences::alarms(report).iter().map(|said| text(said)))),
        entry("fault", or_null(report.tally.fault().map(tally::fault))),
        entry("words", answers.words()),
        entry("taken", answers.taken),
        entry("again", answers.again),
        entry("refused", answers.refusals()),
        entry("calls", or_null(report.tally.calls.as_ref().ok().map(|_| report.calls().to_string()))),
        entry("functions", or_null(report.tally.calls.as_ref().ok().map(|_| functions(report)))),
        entry("energy", or_null(report.bill.as_ref().map(energy))),
        entry("refusals", lines(answers.refused().map(|(refusal, refused)| one(refusal, refused)))),
        entry("pages", pages(&report.tally)),
        entry("restored", restored(&report.tally)),
    ])
}

/// The most called first.
fn functions(report: &Report) -> String {
    let row = |one: crate::ranking::Ranked| {
        let name = or_null(report.name(one.function).map(text));
        object(&[entry("function", one.function), entry("name", name), entry("calls", one.calls)])
    };
    lines(report.ranked().into_iter().map(row))
}

/// Picojoules are null where the library refuses the bill.
fn energy(bill: &Bill) -> String {
    let part = |part: &Part| {
        object(&[
            entry("function", part.function),
            entry("calls", part.calls),
            entry("price", or_null(part.price.map(|price| price.to_string()))),
            entry("thousandths", part.thousandths),
        ])
    };
    object(&[
        entry("picojoules", or_null(bill.picojoules.ok().map(|picojoules| picojoules.to_string()))),
        entry("thousandths", bill.thousandths()),
        entry("parts", lines(bill.parts.iter().map(part))),
    ])
}

fn one(refusal: Refusal, refused: &Refused) -> String {
    object(&[
        entry("refusal", refusal.number()),
        entry("name", text(refusal.name())),
        entry("meaning", text(&sentences::quoted(refusal.meaning()))),
        entry("advice", text(refusal.advice())),
        entry("words", refused.words),
        entry("lines", ranges(&refused.lines)),
        entry("more", refused.more),
    ])
}

fn pages(tally: &Tally) -> String {
    let answers = &tally.answers;
    object(&[entry("came", ranges(&answers.pages(true))), entry("missing", ranges(&answers.pages(false)))])
}

/// Words by the symbols restored in them, from 0 on, and the run in parts.
fn restored(tally: &Tally) -> String {
    let answers = &tally.answers;
    let part = |part: &run::Part| {
        object(&[
            entry("first", part.first),
            entry("last", part.last()),
            entry("refused", part.refused),
            entry("symbols", part.restored),
        ])
    };
    object(&[
        entry("symbols", answers.symbols()),
        entry("words", list(answers.restored.iter().map(u64::to_string))),
        entry("run", lines(answers.run.parts().iter().map(part))),
    ])
}
