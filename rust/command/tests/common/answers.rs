//! The table of docs/ANSWERS.md.

use std::fs;

/// When a refusal comes, and what to do about it.
#[derive(Clone)]
pub struct Refusal {
    pub number: u64,
    pub when: String,
    pub advice: String,
}

/// The refusals of the table, as a report is to say them: without the marks for code.
pub fn refusals() -> Vec<Refusal> {
    let page = fs::read_to_string(format!("{}/docs/ANSWERS.md", super::ROOT)).expect("docs/ANSWERS.md is there");
    let rows = page.lines().filter_map(|line| line.strip_prefix("| ")?.strip_suffix(" |"));
    let row = |row: &str| {
        let cells: Vec<&str> = row.split(" | ").collect();
        let digits: String = cells[0].chars().take_while(char::is_ascii_digit).collect();
        let [_, when, advice] = cells[..] else { return None };
        Some(Refusal { number: digits.parse().ok()?, when: when.replace('`', "'"), advice: advice.replace('`', "'") })
    };
    rows.filter_map(row).collect()
}
