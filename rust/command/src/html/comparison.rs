//! Two tallies compared, as a page.

use super::table::{classed_bar_row, folded, head, name, number};
use super::{document, escaped, headed, listed, paragraph, part};
use crate::comparison::{Change, Comparison, Figure};
use crate::report::PAGE;

pub fn page(comparison: &Comparison) -> String {
    let [before, after] = [0, 1].map(|side: usize| comparison.sides[side].origin());
    let title = format!("Tallies compared: {before} and {after}");
    let header = headed("Tallies compared", &[format!("before: {before}"), format!("after: {after}")], &[]);
    document(&title, &(header + &runs(comparison) + &functions(comparison)))
}

fn runs(comparison: &Comparison) -> String {
    let row = |figure: Figure| {
        let [before, after] = figure.values;
        let cells = [
            format!("<th scope=\"row\">{}</th>", escaped(figure.what)),
            number(&PAGE.number(before)),
            number(&PAGE.number(after)),
            number(&PAGE.signed(after as i64 - before as i64)),
        ];
        format!("<tr>{}</tr>\n", cells.concat())
    };
    let rows: String = comparison.figures().into_iter().map(row).collect();
    let columns = [("", ""), ("number", "Before"), ("number", "After"), ("number", "Change")];
    let head = head("Both runs", &columns);
    part("The runs", &format!("<table class=\"run\">\n{head}<tbody>\n{rows}</tbody>\n</table>\n"))
}

fn functions(comparison: &Comparison) -> String {
    let mut contents = paragraph(&comparison.said(PAGE));
    if let Some(first) = comparison.changes.first() {
        let rows: Vec<String> = comparison.changes.iter().map(|one| row(comparison, one, first)).collect();
        let mut columns = vec![("number", "Function")];
        columns.extend(comparison.named().then_some(("name", "Name")));
        columns.extend([("bar", ""), ("number", "Before"), ("number", "After"), ("number", "Change")]);
        columns.extend([("number", "Share before"), ("number", "Share after")]);
        let head = head("The greatest change first. Shares are of all calls of a run.", &columns);
        contents += &folded("all-changes", "changes", "ranked changes", &head, &rows);
    }
    for (what, ranges) in comparison.lists() {
        contents += &listed(what, &PAGE.ranges(&ranges));
    }
    part("Functions by change of calls", &contents)
}

fn row(comparison: &Comparison, one: &Change, first: &Change) -> String {
    let [before, after] = comparison.shares(one);
    let cells = [
        format!("<th scope=\"row\" class=\"number\">{}</th>", one.function),
        name(comparison.named(), comparison.name(one.function)),
        "<td class=\"bar\"></td>".to_string(),
        number(&PAGE.number(one.calls[0])),
        number(&PAGE.number(one.calls[1])),
        number(&PAGE.signed(one.change())),
        number(&before),
        number(&after),
    ];
    let class = if one.change() < 0 { "fewer" } else { "more" };
    let length = |one: &Change| u128::from(one.change().unsigned_abs());
    classed_bar_row(class, length(one), length(first), &cells.concat())
}
