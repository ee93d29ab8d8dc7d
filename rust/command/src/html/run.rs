//! Figures of the whole run.

use super::{escaped, paragraph, part};
use crate::figures::share;
use crate::report::{Report, PAGE};
use crate::sentences;

/// A figure of more characters gets twice the room.
const SHORT: usize = 10;

pub fn section(report: &Report) -> String {
    let answers = &report.tally.answers;
    let kinds = [("taken", answers.taken), ("again", answers.again), ("refused", answers.refusals())];
    let words = u128::from(answers.words());
    let mut tiles = tile("all", &PAGE.number(words), if words == 1 { "word" } else { "words" });
    for (kind, number) in kinds {
        let what = format!("{kind} <span class=\"soft\">{}</span>", escaped(&share(number.into(), words)));
        tiles += &tile(kind, &PAGE.number(number), &what);
    }
    let shown = kinds.iter().filter(|(_, number)| *number > 0);
    let stack: String =
        shown.map(|(kind, number)| format!("<span class=\"{kind}\" style=\"flex:{number}\">\u{a0}</span>")).collect();
    let most =
        if report.tally.calls.is_ok() { paragraph(&sentences::most_called(report, PAGE)) } else { String::new() };
    let contents = format!(
        "<ul class=\"tiles\">\n{tiles}{}</ul>\n<div class=\"stack\" aria-hidden=\"true\">{stack}</div>\n{most}",
        counted(report),
    );
    part("The run", &contents)
}

/// What only a tally has.
fn counted(report: &Report) -> String {
    if report.tally.calls.is_err() {
        return String::new();
    }
    let functions = tile("all", &report.ranked().len().to_string(), "functions <span class=\"soft\">of 255</span>");
    let calls = tile("all", &PAGE.number(report.calls()), if report.calls() == 1 { "call" } else { "calls" });
    let bill = report.bill.as_ref().and_then(|bill| bill.picojoules.ok());
    let bill = bill.map(|picojoules| PAGE.energy(picojoules));
    let bill = bill.map(|(figure, unit)| tile("all", &figure, &format!("{unit}, the bill"))).unwrap_or_default();
    functions + &calls + &bill
}

fn tile(class: &str, figure: &str, what: &str) -> String {
    let long = if figure.chars().count() > SHORT { " long" } else { "" };
    format!("<li class=\"{class}{long}\"><b>{figure}</b> {what}</li>\n")
}
