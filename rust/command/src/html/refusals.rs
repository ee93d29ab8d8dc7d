//! The refused words, and what to do about them.

use super::table::{head, number};
use super::{escaped, paragraph, part};
use crate::answers::Refused;
use crate::report::{Report, PAGE};
use crate::sentences;
use shaftglimmer::Refusal;

pub fn section(report: &Report) -> String {
    let rows: String = report.tally.answers.refused().map(|(refusal, refused)| row(refusal, refused)).collect();
    let columns = [("", "Refusal"), ("number", "Words"), ("", "What it means, and what to do")];
    let contents = if rows.is_empty() {
        paragraph("No word was refused.")
    } else {
        format!("<table class=\"advice\">\n{}<tbody>\n{rows}</tbody>\n</table>\n", head(sentences::REFUSED, &columns))
    };
    part("Refused words", &contents)
}

fn row(refusal: Refusal, refused: &Refused) -> String {
    format!(
        "<tr><th scope=\"row\">{} {}</th>{}<td><span class=\"soft\">{}</span> {} \
         <span class=\"soft\">Lines of the capture: {}.</span></td></tr>\n",
        refusal.number(),
        refusal.name(),
        number(&PAGE.number(refused.words)),
        escaped(&sentences::quoted(refusal.meaning())),
        escaped(refusal.advice()),
        sentences::lines(refused, PAGE),
    )
}
