//! Symbols restored over the run.

use super::table::{bar_row, head, number};
use super::{paragraph, part};
use crate::figures::{mean, share};
use crate::report::{Report, PAGE};
use crate::run::{highest, Part};
use crate::sentences;

/// Rows of the table beside the chart.
const ROWS: usize = 8;
/// Where the chart's bars begin: those of symbols go up from here, those of refused words down.
const BASE: f64 = 76.0;

pub fn section(report: &Report) -> String {
    let answers = &report.tally.answers;
    let mut contents = paragraph(&sentences::restored(report, PAGE));
    if answers.words() > 0 {
        contents += &chart(answers.run.parts());
        contents += &format!("<div class=\"pair\">\n{}{}</div>\n", parts(report), weights(&answers.restored));
    }
    part("Symbols restored over the run", &contents)
}

/// Symbols for each word read, the parts of the run side by side.
fn chart(parts: &[Part]) -> String {
    let highest = highest(parts);
    let bars: String = parts.iter().enumerate().map(|(place, part)| bar(place, part, highest.rate())).collect();
    let top = mean(highest.restored, highest.read());
    let last = parts.last().map_or(0, Part::last);
    let width = parts.len();
    format!(
        "<div class=\"chart\">\n<p class=\"soft\">\
         <span class=\"key\">up: symbols restored for each word read, {top} at most</span> \
         <span class=\"key lost\">down: share of words refused</span></p>\n\
         <svg viewBox=\"0 0 {width} 100\" preserveAspectRatio=\"none\" role=\"img\" \
         aria-label=\"Symbols restored and words refused over the run; the table below says the same\">\n{bars}\
         <rect class=\"base\" x=\"0\" y=\"{BASE}\" width=\"{width}\" height=\".6\"/>\n</svg>\n\
         <div class=\"ends\"><span>word 1</span><span>word {}</span></div>\n</div>\n",
        PAGE.number(last),
    )
}

fn bar(place: usize, part: &Part, most: f64) -> String {
    let x = place as f64 + 0.08;
    let up = if part.restored == 0 { 0.0 } else { (part.rate() / most * BASE).max(1.0) };
    let down =
        if part.refused == 0 { 0.0 } else { (part.refused as f64 / part.words as f64 * (100.0 - BASE)).max(2.0) };
    let mut bars = String::new();
    if up > 0.0 {
        bars += &format!(
            "<rect class=\"restored\" x=\"{x:.2}\" y=\"{:.2}\" width=\".84\" height=\"{up:.2}\"/>\n",
            BASE - up
        );
    }
    if down > 0.0 {
        bars += &format!("<rect class=\"lost\" x=\"{x:.2}\" y=\"{BASE:.2}\" width=\".84\" height=\"{down:.2}\"/>\n");
    }
    bars
}

/// The chart in a few rows of numbers.
fn parts(report: &Report) -> String {
    let row = |part: Part| {
        let cells = [
            format!("<th scope=\"row\">{}</th>", PAGE.ranges(&[(part.first, part.last())])),
            number(&PAGE.number(part.restored)),
            number(&mean(part.restored, part.read())),
            number(&PAGE.number(part.refused)),
        ];
        format!("<tr>{}</tr>\n", cells.concat())
    };
    let rows: String = report.tally.answers.run.coarse(ROWS).into_iter().map(row).collect();
    let head = head(
        "Over the run",
        &[("", "Words"), ("number", "Symbols restored"), ("number", "for each word read"), ("number", "Words refused")],
    );
    format!("<table class=\"run\">\n{head}<tbody>\n{rows}</tbody>\n</table>\n")
}

/// How many words had how many symbols restored.
fn weights(restored: &[u64]) -> String {
    let read: u64 = restored.iter().sum();
    let most = restored.iter().copied().max().unwrap_or(0);
    let Some(last) = restored.iter().rposition(|&words| words > 0) else { return String::new() };
    let row = |symbols: usize| {
        let words = restored[symbols];
        let cells = [
            format!("<th scope=\"row\" class=\"number\">{symbols}</th>"),
            "<td class=\"bar\"></td>".to_string(),
            number(&PAGE.number(words)),
            number(&share(words.into(), read.into())),
        ];
        bar_row(words.into(), most.into(), &cells.concat())
    };
    let rows: String = (0..=last).map(row).collect();
    let columns = [("number", "Symbols"), ("bar", ""), ("number", "Words"), ("number", "Share")];
    let head = head("Words read, by the symbols restored in them", &columns);
    format!("<table>\n{head}<tbody>\n{rows}</tbody>\n</table>\n")
}
