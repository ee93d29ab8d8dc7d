//! The report for a terminal, with the same figures as the page.

mod comparison;
mod layout;

use crate::bill::Bill;
use crate::clean::fitted;
use crate::figures::{mean, share};
use crate::report::{several, Report, TERMINAL};
use crate::run::{highest, Part};
use crate::sentences;
use crate::tally::FUNCTIONS;
pub use comparison::page as comparison;
use layout::{heading, paragraph, Row, Table, COLUMNS};

/// Rows of the table over the run.
const ROWS: usize = 16;

pub fn page(report: &Report) -> String {
    let title = report.title.as_ref().map(|title| format!("{}\n", fitted(title, COLUMNS)));
    let mut sections: Vec<String> = title.into_iter().collect();
    sections.push(format!("{}\n", fitted(&format!("Tally report of {}", report.origin()), COLUMNS)));
    sections.extend(sentences::alarms(report).iter().map(|said| paragraph(said, 0)));
    if report.tally.fault().is_none() {
        sections.extend(parts(report));
    }
    sections.concat()
}

/// What stands under the first lines, if there are words.
fn parts(report: &Report) -> Vec<String> {
    let mut sections = vec![run(report)];
    if report.tally.calls.is_ok() {
        sections.push(functions(report));
        sections.extend(report.bill.as_ref().map(|bill| energy(report, bill)));
        sections.push(coverage(report));
    }
    sections.extend([refusals(report), pages(report), restored(report)]);
    sections
}

fn run(report: &Report) -> String {
    let answers = &report.tally.answers;
    let words = answers.words();
    let one = |kind: &str, number: u64| Row {
        numbers: vec![kind.to_string(), TERMINAL.number(number), share(number.into(), words.into())],
        bar: (number.into(), words.into()),
        name: String::new(),
    };
    let rows = vec![one("taken", answers.taken), one("again", answers.again), one("refused", answers.refusals())];
    let table = Table { head: vec!["outcome", "words", "share"], rows, bars: 40 };
    let counted = report.tally.calls.is_ok();
    let most = if counted { paragraph(&sentences::most_called(report, TERMINAL), 0) } else { String::new() };
    let came = several(TERMINAL, words, "word came.", "words came.");
    heading("The run") + &paragraph(&came, 0) + &table.lines() + &most
}

fn functions(report: &Report) -> String {
    let ranked = report.ranked();
    let Some(first) = ranked.first() else { return heading("Functions by calls") + "No function was called.\n" };
    let all = u128::from(report.calls());
    let row = |one: &crate::ranking::Ranked| Row {
        numbers: vec![
            one.function.to_string(),
            TERMINAL.number(one.calls),
            share(one.calls.into(), all),
            share(one.running.into(), all),
        ],
        bar: (one.calls.into(), first.calls.into()),
        name: report.name(one.function).unwrap_or("").to_string(),
    };
    let head = vec!["function", "calls", "share", "running"];
    let bars = if report.named() { 12 } else { 32 };
    heading("Functions by calls") + &Table { head, rows: ranked.iter().map(row).collect(), bars }.lines()
}

fn energy(report: &Report, bill: &Bill) -> String {
    let said: String = sentences::bill(bill, TERMINAL).iter().map(|said| paragraph(said, 0)).collect();
    let all = bill.thousandths();
    let row = |part: &crate::bill::Part| Row {
        numbers: vec![
            part.function.to_string(),
            TERMINAL.number(part.calls),
            part.price.map_or("none".to_string(), |price| TERMINAL.number(price)),
            TERMINAL.number(part.thousandths),
            share(part.thousandths.into(), all),
        ],
        bar: (0, 0),
        name: report.name(part.function).unwrap_or("").to_string(),
    };
    let head = vec!["function", "calls", "price", "calls x price", "share"];
    heading("Energy") + &said + &Table { head, rows: bill.parts.iter().map(row).collect(), bars: 0 }.lines()
}

/// Rows of 16 functions.
fn coverage(report: &Report) -> String {
    let calls = report.tally.counts();
    let sign = |function: usize| match (function, calls[function]) {
        (0, _) => "  -",
        (_, 0) => "  .",
        _ => "  #",
    };
    let columns: String = (0..16).map(|column| format!("{:>3}", format!("+{column}"))).collect();
    let rows = (0..FUNCTIONS).step_by(16).map(|start| {
        let signs: String = (start..start + 16).map(sign).collect();
        format!("{start:>3} {signs}\n")
    });
    let said = format!("{} # called, . not called, - the idle loop, which is no function", sentences::covered(report));
    let map = format!("    {columns}\n{}", rows.collect::<String>());
    heading("Coverage") + &paragraph(&said, 0) + &map + &listed("Not called", &sentences::uncalled(report, TERMINAL))
}

fn listed(what: &str, ranges: &str) -> String {
    paragraph(&format!("{what}: {ranges}"), 0)
}

fn pages(report: &Report) -> String {
    let answers = &report.tally.answers;
    let said = heading("Pages") + &paragraph(&sentences::pages(report, TERMINAL), 0);
    if answers.highest().is_none() {
        return said;
    }
    let (came, missing) = (TERMINAL.ranges(&answers.pages(true)), TERMINAL.ranges(&answers.pages(false)));
    said + &listed("Came", &came) + &listed("Missing", &missing)
}

fn restored(report: &Report) -> String {
    let said = heading("Symbols restored over the run") + &paragraph(&sentences::restored(report, TERMINAL), 0);
    if report.tally.answers.words() == 0 {
        return said;
    }
    said + &over_the_run(report) + &by_symbols(&report.tally.answers.restored)
}

fn over_the_run(report: &Report) -> String {
    let parts = report.tally.answers.run.coarse(ROWS);
    let highest = highest(&parts);
    let times = |one: u64, other: u64| u128::from(one) * u128::from(other);
    let row = |part: &Part| Row {
        numbers: vec![
            TERMINAL.ranges(&[(part.first, part.last())]),
            TERMINAL.number(part.restored),
            mean(part.restored, part.read()),
            TERMINAL.number(part.refused),
        ],
        // The quotient of two rates.
        bar: (times(part.restored, highest.read()), times(highest.restored, part.read())),
        name: String::new(),
    };
    Table { head: vec!["words", "restored", "a word", "refused"], rows: parts.iter().map(row).collect(), bars: 24 }
        .lines()
}

fn by_symbols(restored: &[u64]) -> String {
    let read: u64 = restored.iter().sum();
    let most = restored.iter().copied().max().unwrap_or(0);
    let Some(last) = restored.iter().rposition(|&words| words > 0) else { return String::new() };
    let row = |symbols: usize| Row {
        numbers: vec![
            symbols.to_string(),
            TERMINAL.number(restored[symbols]),
            share(restored[symbols].into(), read.into()),
        ],
        bar: (restored[symbols].into(), most.into()),
        name: String::new(),
    };
    let head = vec!["symbols", "words read", "share"];
    "\n".to_string() + &Table { head, rows: (0..=last).map(row).collect(), bars: 40 }.lines()
}

fn refusals(report: &Report) -> String {
    let said = report.tally.answers.refused().map(|(refusal, refused)| {
        let words = several(TERMINAL, refused.words, "word", "words");
        let lines = format!("Lines of the capture: {}.", sentences::lines(refused, TERMINAL));
        let said = [&sentences::quoted(refusal.meaning()), refusal.advice(), &lines].map(|said| paragraph(said, 4));
        format!("{} {}: {words}\n{}", refusal.number(), refusal.name(), said.concat())
    });
    let said: String = said.collect();
    let said =
        if said.is_empty() { "No word was refused.\n".to_string() } else { paragraph(sentences::REFUSED, 0) + &said };
    heading("Refused words") + &said
}
