//! The report as one HTML page. It needs nothing from elsewhere and runs no script.

mod comparison;
mod coverage;
mod energy;
mod functions;
mod pages;
mod refusals;
mod restored;
mod run;
mod table;

use crate::report::Report;
use crate::sentences;
pub use comparison::page as comparison;

const STYLE: &str = include_str!("html/style.css");

/// No script runs, whatever a name holds, and nothing is loaded.
const POLICY: &str = "default-src &#39;none&#39;; style-src &#39;unsafe-inline&#39;";

const FOOTER: &str = "<footer>Made by shaftglimmer. \
    Function 0 is the idle loop: it is no function, and no call of it is counted.</footer>\n";

pub fn page(report: &Report) -> String {
    let title = report.title.clone().unwrap_or(format!("Tally report: {}", report.origin()));
    let mut sections = vec![header(report)];
    if report.tally.fault().is_none() {
        sections.extend(parts(report));
    }
    document(&title, &sections.concat())
}

/// What stands under the header, if there are words.
fn parts(report: &Report) -> Vec<String> {
    let mut sections = vec![run::section(report)];
    let refused = refusals::section(report);
    if report.tally.calls.is_ok() {
        sections.push(functions::section(report));
        sections.extend(report.bill.as_ref().map(|bill| energy::section(report, bill)));
        sections.push(format!("<div class=\"pair\">\n{}{refused}</div>\n", coverage::section(report)));
    } else {
        sections.push(refused);
    }
    sections.extend([pages::section(report), restored::section(report)]);
    sections
}

/// A whole page.
fn document(title: &str, contents: &str) -> String {
    format!(
        "<!DOCTYPE html>\n<html lang=\"en\">\n<head>\n<meta charset=\"utf-8\">\n\
         <meta name=\"viewport\" content=\"width=device-width, initial-scale=1\">\n\
         <meta name=\"color-scheme\" content=\"light dark\">\n\
         <meta http-equiv=\"Content-Security-Policy\" content=\"{POLICY}\">\n\
         <title>{}</title>\n<style>\n{STYLE}</style>\n</head>\n\
         <body>\n<main>\n{contents}{FOOTER}</main>\n</body>\n</html>\n",
        escaped(title),
    )
}

/// Text as it stands between tags, or in an attribute's quotes.
fn escaped(text: &str) -> String {
    let mut safe = String::with_capacity(text.len());
    for c in text.chars() {
        match c {
            '&' => safe += "&amp;",
            '<' => safe += "&lt;",
            '>' => safe += "&gt;",
            '"' => safe += "&quot;",
            '\'' => safe += "&#39;",
            c => safe.push(c),
        }
    }
    safe
}

fn header(report: &Report) -> String {
    let title = report.title.as_deref().unwrap_or("Tally report");
    headed(title, &[format!("of {}", report.origin())], &sentences::alarms(report))
}

/// A title, where it comes from, and what has to be known first.
fn headed(title: &str, sources: &[String], alarms: &[String]) -> String {
    let alarm: String = alarms.iter().map(|said| paragraph(said)).collect();
    let alarm = if alarm.is_empty() { alarm } else { format!("<div class=\"alarm\" role=\"alert\">\n{alarm}</div>\n") };
    let sources = sources.iter().map(|source| format!("<p class=\"source\">{}</p>\n", escaped(source)));
    format!("<header>\n<h1>{}</h1>\n{}{alarm}</header>\n", escaped(title), sources.collect::<String>())
}

/// A part of the page: what stands under a heading.
fn part(heading: &str, contents: &str) -> String {
    format!("<section>\n<h2>{heading}</h2>\n{contents}</section>\n")
}

fn paragraph(text: &str) -> String {
    format!("<p class=\"said\">{}</p>\n", escaped(text))
}

/// Numbers as ranges with a word before them. No range is broken at its dash.
fn listed(what: &str, ranges: &str) -> String {
    let whole = |range: &str| {
        if range.contains('\u{2013}') {
            format!("<span>{range}</span>")
        } else {
            range.to_string()
        }
    };
    let ranges: Vec<String> = ranges.split(", ").map(whole).collect();
    format!("<p class=\"ranges\"><b>{what}:</b> {}</p>\n", ranges.join(", "))
}
