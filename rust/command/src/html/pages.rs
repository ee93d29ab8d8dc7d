//! Which pages came.

use super::{listed, paragraph, part};
use crate::ranges::ranges;
use crate::report::{Report, PAGE};
use crate::sentences;

/// Pages in a row of the map.
const ROW: usize = 64;

pub fn section(report: &Report) -> String {
    let answers = &report.tally.answers;
    let mut contents = paragraph(&sentences::pages(report, PAGE));
    if let Some(highest) = answers.highest() {
        contents += &map(&answers.came[..=highest]);
        contents += &listed("Came", &PAGE.ranges(&answers.pages(true)));
        contents += &listed("Missing", &PAGE.ranges(&answers.pages(false)));
    }
    part("Pages", &contents)
}

fn map(came: &[bool]) -> String {
    let rows = came.len().div_ceil(ROW);
    let columns: String = (1..ROW).map(|column| format!("M{column} 0v{rows}")).collect();
    let across: String = (1..rows).map(|row| format!("M0 {row}h{ROW}")).collect();
    format!(
        "<svg viewBox=\"0 0 {ROW} {rows}\" role=\"img\" aria-label=\"Map of the pages; the ranges say the same\">\n\
         <path class=\"missing\" d=\"{}\"/>\n<path class=\"came\" d=\"{}\"/>\n\
         <path class=\"grid\" stroke-width=\".14\" d=\"{columns}{across}\"/>\n</svg>\n\
         <p class=\"soft\"><span class=\"key\">came</span> <span class=\"key gone\">missing</span> \
         {ROW} pages in a row, from page 0 on</p>\n",
        cells(came, false),
        cells(came, true),
    )
}

/// A bar for each run of pages in a row.
fn cells(came: &[bool], yes: bool) -> String {
    let bars = came.chunks(ROW).enumerate().flat_map(|(row, came)| {
        let these = (0..came.len()).filter(|&page| came[page] == yes).map(|page| page as u64);
        ranges(these).into_iter().map(move |(first, last)| {
            let length = last - first + 1;
            format!("M{first} {row}h{length}v1h-{length}z")
        })
    });
    bars.collect()
}
