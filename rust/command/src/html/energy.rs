//! The bill, and what each function adds to it.

use super::table::{bar_row, folded, head, name, number};
use super::{paragraph, part};
use crate::bill::{Bill, Part};
use crate::figures::share;
use crate::report::{Report, PAGE};
use crate::sentences;

pub fn section(report: &Report, bill: &Bill) -> String {
    let said = paragraph(&sentences::bill(bill, PAGE).join(" "));
    part("Energy", &(said + &table(report, bill)))
}

fn table(report: &Report, bill: &Bill) -> String {
    let Some(first) = bill.parts.first() else { return String::new() };
    let named = report.named();
    let all = bill.thousandths();
    let row =
        |part: &Part| bar_row(part.thousandths.into(), first.thousandths.into(), &cells(report, named, part, all));
    let rows: Vec<String> = bill.parts.iter().map(row).collect();
    let mut columns = vec![("number", "Function")];
    columns.extend(named.then_some(("name", "Name")));
    columns.extend([("bar", ""), ("number", "Calls"), ("number", "Price")]);
    columns.extend([("number", "Calls × price"), ("number", "Share")]);
    let head = head("The dearest first. Prices and parts are in thousandths of a picojoule.", &columns);
    folded("all-parts", "parts", "ranked parts", &head, &rows)
}

fn cells(report: &Report, named: bool, part: &Part, all: u128) -> String {
    let cells = [
        format!("<th scope=\"row\" class=\"number\">{}</th>", part.function),
        name(named, report.name(part.function)),
        "<td class=\"bar\"></td>".to_string(),
        number(&PAGE.number(part.calls)),
        number(&part.price.map_or("none".to_string(), |price| PAGE.number(price))),
        number(&PAGE.number(part.thousandths)),
        number(&share(part.thousandths.into(), all)),
    ];
    cells.concat()
}
