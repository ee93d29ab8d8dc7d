//! Tables of which only the first rows are shown at once.

use super::escaped;

/// So many rows are shown at once, and a few more if these are all.
const SHOWN: usize = 20;
const FEW: usize = 4;

/// A row with a bar.
pub fn bar_row(part: u128, longest: u128, cells: &str) -> String {
    format!("<tr style=\"{}\">{cells}</tr>\n", bar(part, longest))
}

/// The same in a class of rows.
pub fn classed_bar_row(class: &str, part: u128, longest: u128, cells: &str) -> String {
    format!("<tr class=\"{class}\" style=\"{}\">{cells}</tr>\n", bar(part, longest))
}

/// How long a bar is, in percent of the longest.
fn bar(part: u128, longest: u128) -> String {
    let tenths = (part * 1000 + longest / 2) / longest.max(1);
    format!("--s:{}.{}%", tenths / 10, tenths % 10)
}

/// The rest is shown on demand, and on paper.
pub fn folded(id: &str, things: &str, class: &str, head: &str, rows: &[String]) -> String {
    if rows.len() <= SHOWN + FEW {
        return format!("<table class=\"{class}\">\n{head}<tbody>\n{}</tbody>\n</table>\n", rows.concat());
    }
    let (first, rest) = (rows[..SHOWN].concat(), rows[SHOWN..].concat());
    format!(
        "<div class=\"folded\">\n<input type=\"checkbox\" class=\"fold\" id=\"{id}\">\n\
         <table class=\"{class}\">\n{head}<tbody>\n{first}</tbody>\n<tbody class=\"rest\">\n{rest}</tbody>\n</table>\n\
         <label for=\"{id}\"><span class=\"more\">Show all {} {things}</span>\
         <span class=\"less\">Show the first {SHOWN} only</span></label>\n</div>\n",
        rows.len(),
    )
}

/// A heading row: class and text of each column.
pub fn head(caption: &str, columns: &[(&str, &str)]) -> String {
    let column = |&(class, text): &(&str, &str)| match (class, text) {
        ("", "") => "<td></td>".to_string(),
        (class, "") => format!("<td class=\"{class}\"></td>"),
        ("", text) => format!("<th scope=\"col\">{text}</th>"),
        (class, text) => format!("<th scope=\"col\" class=\"{class}\">{text}</th>"),
    };
    let columns: String = columns.iter().map(column).collect();
    format!("<caption>{}</caption>\n<thead>\n<tr>{columns}</tr>\n</thead>\n", escaped(caption))
}

pub fn number(text: &str) -> String {
    format!("<td class=\"number\">{}</td>", escaped(text))
}

/// So many characters of a name are shown. A tooltip has the whole of a longer one.
const NAME: usize = 80;

/// The cell of a function's name, if the table has such a column. What does not fit into it is clipped.
pub fn name(named: bool, name: Option<&str>) -> String {
    match name {
        _ if !named => String::new(),
        None => "<td class=\"name\"></td>".to_string(),
        Some(name) => name_cell(name),
    }
}

fn name_cell(name: &str) -> String {
    let Some((end, _)) = name.char_indices().nth(NAME) else {
        return format!("<td class=\"name\"><span>{}</span></td>", escaped(name));
    };
    let (shown, whole) = (escaped(&name[..end]), escaped(name));
    format!("<td class=\"name\" title=\"{whole}\"><span>{shown}\u{2026}</span></td>")
}
