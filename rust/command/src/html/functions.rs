//! The functions by their calls.

use super::table::{bar_row, folded, head, name, number};
use super::{paragraph, part};
use crate::figures::share;
use crate::ranking::Ranked;
use crate::report::{Report, PAGE};

pub fn section(report: &Report) -> String {
    part("Functions by calls", &table(report))
}

fn table(report: &Report) -> String {
    let ranked = report.ranked();
    let Some(first) = ranked.first() else { return paragraph("No function was called.") };
    let named = report.named();
    let rows: Vec<String> = ranked.iter().map(|one| row(report, named, one, first.calls)).collect();
    let mut columns = vec![("number", "Function")];
    columns.extend(named.then_some(("name", "Name")));
    columns.extend([("bar", ""), ("number", "Calls"), ("number", "Share"), ("number", "Running share")]);
    let head = head("The most called first. The running share is that of a function and all above it.", &columns);
    folded("all-functions", "functions", "ranked", &head, &rows)
}

fn row(report: &Report, named: bool, one: &Ranked, most: u32) -> String {
    let all = u128::from(report.calls());
    let cells = [
        format!("<th scope=\"row\" class=\"number\">{}</th>", one.function),
        name(named, report.name(one.function)),
        "<td class=\"bar\"></td>".to_string(),
        number(&PAGE.number(one.calls)),
        number(&share(one.calls.into(), all)),
        number(&share(one.running.into(), all)),
    ];
    bar_row(one.calls.into(), most.into(), &cells.concat())
}
