//! The words of the refusals are those of the documents.

use shaftglimmer::Refusal;
use std::collections::BTreeMap;
use std::fs;

/// The rows of a document's tables whose first cell begins with a number, by that number: the cells.
fn rows(name: &str) -> BTreeMap<u32, Vec<String>> {
    let path = format!("{}/../docs/{name}", env!("CARGO_MANIFEST_DIR"));
    let text = fs::read_to_string(&path).unwrap_or_else(|error| panic!("{path}: {error}"));
    let cells = |line: &str| line.split('|').map(|cell| cell.trim().to_string()).skip(1).collect::<Vec<String>>();
    let number = |cells: &Vec<String>| cells.first()?.split([' ', ',']).next()?.parse().ok();
    text.lines().map(cells).filter_map(|cells| Some((number(&cells)?, cells))).collect()
}

#[test]
fn answers_and_what_to_do() {
    let rows = rows("ANSWERS.md");
    for refusal in Refusal::ALL {
        let row = rows.get(&refusal.number()).unwrap_or_else(|| panic!("docs/ANSWERS.md has no row for {refusal}"));
        assert_eq!([&row[1], &row[2]], [refusal.meaning(), refusal.advice()], "{refusal}");
    }
}

#[test]
fn numbers_and_names() {
    let rules = fs::read_to_string(concat!(env!("CARGO_MANIFEST_DIR"), "/../docs/RULES.md")).expect("docs/RULES.md");
    let code = include_str!("../src/refusal.rs");
    for refusal in Refusal::ALL {
        let (number, name) = (refusal.number(), refusal.name());
        let row = rules.lines().find_map(|line| line.strip_prefix(&format!("| {number} | ")));
        let cells: Vec<&str> = row.unwrap_or_else(|| panic!("docs/RULES.md, 6: no row {number}")).split('|').collect();
        let [variant, trade] = [0, 1].map(|cell| cells[cell].trim());
        assert!(code.contains(&format!("    {variant} = {number}, \"{name}\",\n")), "{variant} is {number}, {name}");
        assert_eq!(name, if trade.is_empty() { spelled_out(variant) } else { trade.to_string() });
        assert_eq!(Refusal::from_number(number), Some(refusal));
    }
    assert_eq!([0, 21, u32::MAX].map(Refusal::from_number), [None; 3]);
}

/// `NoMajority` as `no majority`.
fn spelled_out(name: &str) -> String {
    let letter = |c: char| if c.is_uppercase() { format!(" {}", c.to_lowercase()) } else { c.to_string() };
    name.chars().map(letter).collect::<String>().trim().to_string()
}

/// Each says by itself what to do.
#[test]
fn advice_stands_alone() {
    for refusal in Refusal::ALL {
        assert!(!refusal.advice().contains("As for") && refusal.advice().len() > 20, "{refusal}");
    }
}

#[test]
fn in_one_line() {
    let text = Refusal::Width.to_string();
    assert_eq!(text, "refusal 3 (width): A symbol is 2^b or more.");
    assert_eq!(format!("{:?}", Refusal::Width), text);
    let error: Box<dyn std::error::Error> = Refusal::Width.into();
    assert_eq!(error.to_string(), text);
}
