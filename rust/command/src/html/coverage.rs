//! Which functions were called, as a map.

use super::table::head;
use super::{escaped, listed, paragraph, part};
use crate::report::{several, Report, PAGE};
use crate::sentences;
use crate::tally::FUNCTIONS;

/// Functions in a row of the map.
const ROW: usize = 16;

pub fn section(report: &Report) -> String {
    let names: Vec<String> = (0..ROW).map(|column| format!("+{column}")).collect();
    let columns: Vec<(&str, &str)> =
        [("", "")].into_iter().chain(names.iter().map(|name| ("", name.as_str()))).collect();
    let head = head(
        "A cell for each function, in rows of 16: filled if it was called, and the stronger, the more calls.",
        &columns,
    );
    let calls = report.tally.counts();
    let most = calls.iter().copied().max().unwrap_or(0);
    let rows = (0..FUNCTIONS).step_by(ROW).map(|start| {
        let cells: String =
            (start..start + ROW).map(|function| cell(report, function, calls[function], most)).collect();
        format!("<tr><th scope=\"row\">{start}</th>{cells}</tr>\n")
    });
    let map = format!("<table class=\"map\">\n{head}<tbody>\n{}</tbody>\n</table>\n", rows.collect::<String>());
    let uncalled = listed("Not called", &sentences::uncalled(report, PAGE));
    part("Coverage", &(paragraph(&sentences::covered(report)) + &map + &uncalled))
}

fn cell(report: &Report, function: usize, calls: u32, most: u32) -> String {
    if function == 0 {
        return "<td title=\"0: the idle loop, no function\">\u{2013}</td>".to_string();
    }
    let name = report.name(function).map_or(String::new(), |name| format!(" {}", escaped(name)));
    if calls == 0 {
        return format!("<td class=\"no\" title=\"{function}{name}: not called\">{function}</td>");
    }
    let said = several(PAGE, calls.into(), "call", "calls");
    format!("<td class=\"c{}\" title=\"{function}{name}: {said}\">{function}</td>", strength(calls, most))
}

/// From 1 to 5, by the number of binary digits.
fn strength(calls: u32, most: u32) -> u32 {
    calls.ilog2() * 5 / (most.ilog2() + 1) + 1
}
