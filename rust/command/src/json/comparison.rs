//! Two tallies compared.

use super::{entry, lines, object, or_null, ranges, text, whole};
use crate::comparison::{Change, Comparison, Side};
use crate::ranking::total;

pub fn page(comparison: &Comparison) -> String {
    let [new, gone, same] = comparison.lists().map(|(_, list)| ranges(&list));
    whole(&[
        entry("before", side(&comparison.sides[0])),
        entry("after", side(&comparison.sides[1])),
        entry("changes", lines(comparison.changes.iter().map(|one| change(comparison, one)))),
        entry("new", new),
        entry("gone", gone),
        entry("same", same),
    ])
}

fn side(side: &Side) -> String {
    object(&[
        entry("source", text(&side.source)),
        entry("date", or_null(side.date.as_deref().map(text))),
        entry("words", side.answers.words()),
        entry("pages", side.answers.taken),
        entry("refused", side.answers.refusals()),
        entry("calls", total(&side.calls)),
    ])
}

fn change(comparison: &Comparison, one: &Change) -> String {
    object(&[
        entry("function", one.function),
        entry("name", or_null(comparison.name(one.function).map(text))),
        entry("before", one.calls[0]),
        entry("after", one.calls[1]),
        entry("change", one.change()),
    ])
}
