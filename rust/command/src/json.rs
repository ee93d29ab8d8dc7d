//! What programs read. Each object has all of its keys, whatever the input.

mod comparison;
mod report;
pub mod tally;

pub use comparison::page as comparison;
pub use report::page as report;

/// A text in quotes.
pub fn text(text: &str) -> String {
    let mut quoted = "\"".to_string();
    for c in text.chars() {
        match c {
            '"' | '\\' => quoted.extend(['\\', c]),
            '\u{0}'..='\u{1f}' | '\u{7f}'..='\u{9f}' | '\u{2028}' | '\u{2029}' => {
                quoted += &format!("\\u{:04x}", u32::from(c));
            }
            c => quoted.push(c),
        }
    }
    quoted + "\""
}

/// What is there, or null.
pub fn or_null(value: Option<String>) -> String {
    value.unwrap_or("null".to_string())
}

/// A key with its value. Keys need no escaping.
pub fn entry(key: &str, value: impl std::fmt::Display) -> String {
    format!("\"{key}\": {value}")
}

/// An object in one line.
pub fn object(entries: &[String]) -> String {
    format!("{{{}}}", entries.join(", "))
}

/// A list in one line.
pub fn list(values: impl IntoIterator<Item = String>) -> String {
    format!("[{}]", values.into_iter().collect::<Vec<_>>().join(", "))
}

/// A list with a line for each value.
pub fn lines(values: impl IntoIterator<Item = String>) -> String {
    let values: Vec<String> = values.into_iter().collect();
    if values.is_empty() {
        return "[]".to_string();
    }
    format!("[\n{}\n]", values.join(",\n"))
}

/// The whole, with a line for each entry.
pub fn whole(entries: &[String]) -> String {
    format!("{{\n{}\n}}\n", entries.join(",\n"))
}

/// First and last of each range.
pub fn ranges(ranges: &[(u64, u64)]) -> String {
    list(ranges.iter().map(|(first, last)| format!("[{first}, {last}]")))
}
