//! Two tallies compared, for a terminal.

use super::layout::{heading, paragraph, Row, Table, COLUMNS};
use crate::clean::fitted;
use crate::comparison::{Change, Comparison, Figure};
use crate::report::TERMINAL;

pub fn page(comparison: &Comparison) -> String {
    let [before, after] = [("before", 0), ("after", 1)].map(|(what, side): (&str, usize)| {
        fitted(&format!("{what}: {}", comparison.sides[side].origin()), COLUMNS) + "\n"
    });
    format!("Tallies compared\n{before}{after}{}{}", runs(comparison), functions(comparison))
}

fn runs(comparison: &Comparison) -> String {
    let row = |figure: Figure| {
        let [before, after] = figure.values;
        let change = TERMINAL.signed(after as i64 - before as i64);
        let numbers = vec![figure.what.to_string(), TERMINAL.number(before), TERMINAL.number(after), change];
        Row { numbers, bar: (0, 0), name: String::new() }
    };
    let rows = comparison.figures().into_iter().map(row).collect();
    heading("The runs") + &Table { head: vec!["", "before", "after", "change"], rows, bars: 0 }.lines()
}

fn functions(comparison: &Comparison) -> String {
    let mut contents = heading("Functions by change of calls") + &paragraph(&comparison.said(TERMINAL), 0);
    if let Some(first) = comparison.changes.first() {
        let rows = comparison.changes.iter().map(|one| row(comparison, one, first)).collect();
        let head = vec!["function", "before", "after", "change", "was", "is"];
        contents += "The last two numbers are the share of all calls that it was, and is.\n";
        contents += &Table { head, rows, bars: 8 }.lines();
    }
    for (what, ranges) in comparison.lists() {
        contents += &paragraph(&format!("{what}: {}", TERMINAL.ranges(&ranges)), 0);
    }
    contents
}

fn row(comparison: &Comparison, one: &Change, first: &Change) -> Row {
    let [before, after] = comparison.shares(one);
    let length = |one: &Change| u128::from(one.change().unsigned_abs());
    Row {
        numbers: vec![
            one.function.to_string(),
            TERMINAL.number(one.calls[0]),
            TERMINAL.number(one.calls[1]),
            TERMINAL.signed(one.change()),
            before,
            after,
        ],
        bar: (length(one), length(first)),
        name: comparison.name(one.function).unwrap_or("").to_string(),
    }
}
