//! What programs read has stable keys, and says what people are told.

mod common;

use common::facts::{random_tally, Facts};
use common::json::{read, Json};
use common::{report, run, Random, Scratch, ROOT};
use std::fs;

const TALLY_KEYS: [&str; 10] =
    ["source", "way", "shape", "answers", "words", "taken", "again", "refused", "fault", "functions"];

fn sample(name: &str) -> String {
    fs::read_to_string(format!("{ROOT}/samples/{name}")).expect("the sample is there")
}

/// The lines that the answers stand for.
fn answers(tally: &Json) -> String {
    let line = |one: &Json| {
        assert_eq!(one.keys(), ["line", "outcome", "page", "fixed", "refusal"]);
        let number = if one.get("page") == &Json::Null { one.get("refusal") } else { one.get("page") };
        format!("{} {} {}\n", one.get("outcome").text(), number.number(), one.get("fixed").number())
    };
    tally.get("answers").list().iter().map(line).collect()
}

#[test]
fn a_tally() {
    let found = read(&run(&["tally", "--json", "--way=clean"], sample("capture.txt").as_bytes()).output);
    assert_eq!(found.keys(), TALLY_KEYS);
    let line = |one: &Json| format!("{} {}\n", one.get("function").number(), one.get("calls").number());
    let counts: String = found.get("functions").list().iter().map(line).collect();
    assert_eq!(format!("outcome page fixed\n{}function calls\n{counts}", answers(&found)), sample("capture.tally"));
    let lines: Vec<i128> = found.get("answers").list().iter().map(|one| one.get("line").number()).collect();
    assert_eq!(lines, (4..lines.len() as i128 + 4).collect::<Vec<_>>());
    let [words, taken, again, refused] = ["words", "taken", "again", "refused"].map(|key| found.get(key).number());
    assert_eq!((words, taken + again + refused), (lines.len() as i128, words));
    assert_eq!(["q", "n", "b"].map(|key| found.get("shape").get(key).number()), [17, 4, 32]);
    assert_eq!((found.get("way").text(), found.get("fault")), ("clean", &Json::Null));
}

#[test]
fn no_words_and_a_fault() {
    let empty = run(&["tally", "--json"], b"q n b\n3 2 8\nword\n");
    assert_eq!(read(&empty.output).get("answers").list().len(), 0);
    assert_eq!(empty.status, Some(0));
    let fault = run(&["tally", "--json"], b"q n b\n9 2 8\nword\n5\n");
    let found = read(&fault.output);
    assert_eq!((found.keys(), fault.status), (TALLY_KEYS.to_vec(), Some(2)));
    assert_eq!(found.get("fault").keys(), ["line", "refusal", "text"]);
    assert_eq!(["line", "refusal"].map(|key| found.get("fault").get(key).number()), [2, 1]);
    assert_eq!([found.get("shape"), found.get("functions")], [&Json::Null; 2]);
    assert_eq!((found.get("words").number(), found.get("answers").list().len()), (0, 0));
}

const REPORT_KEYS: [&str; 16] = [
    "title", "source", "date", "tally", "alarms", "fault", "words", "taken", "again", "refused", "calls", "functions",
    "energy", "refusals", "pages", "restored",
];

#[test]
fn reports() {
    for seed in 0..60 {
        let tally = random_tally(&mut Random(seed), &[2, 3, 4, 10, 20]);
        let facts = Facts::of(&tally);
        let found = read(&report(&["--json"], tally.as_bytes()).whole());
        assert_eq!(found.keys(), REPORT_KEYS);
        let function = |one: &Json| (one.get("function").number() as u64, one.get("calls").number() as u64);
        assert_eq!(found.get("functions").list().iter().map(function).collect::<Vec<_>>(), facts.ranked());
        assert_eq!(found.get("words").number(), facts.words.len() as i128);
        let refusal = |one: &Json| (one.get("refusal").number() as u64, one.get("words").number() as usize);
        let expected: Vec<(u64, usize)> = facts.refused.iter().map(|(&number, lines)| (number, lines.len())).collect();
        assert_eq!(found.get("refusals").list().iter().map(refusal).collect::<Vec<_>>(), expected);
        let came = found.get("pages").get("came").list().iter();
        let came = came.flat_map(|range| range.list()[0].number()..=range.list()[1].number());
        assert!(came.eq(facts.came.iter().map(|&page| i128::from(page))));
        let symbols: u64 = facts.words.iter().flatten().sum();
        assert_eq!(found.get("restored").get("symbols").number(), symbols.into());
    }
}

#[test]
fn names_prices_and_titles() {
    let names = Scratch::new("3 \"a\\b\" <x> \u{1}\u{2028}é\n".as_bytes());
    let prices = Scratch::new(b"3 1500\n");
    let tally = "outcome page fixed\nfunction calls\n3 2\n5 1\n";
    let options = ["--json", "--names", names.name(), "--prices", prices.name(), "--title", "A \"run\""];
    let found = read(&report(&options, tally.as_bytes()).whole());
    assert_eq!(found.get("title").text(), "A \"run\"");
    assert_eq!(found.get("functions").list()[0].get("name").text(), "\"a\\b\" <x> \u{fffd}\u{fffd}é");
    assert_eq!(found.get("functions").list()[1].get("name"), &Json::Null);
    let energy = found.get("energy");
    assert_eq!(energy.keys(), ["picojoules", "thousandths", "parts"]);
    assert_eq!([energy.get("picojoules").number(), energy.get("thousandths").number()], [3, 3000]);
    assert_eq!(energy.get("parts").list()[1].get("price"), &Json::Null);
}

#[test]
fn no_tally() {
    for (input, words) in [("q n b\n9 2 8\nword\n", 0), ("outcome page fixed\ntaken 1 0\n", 1), ("", 0)] {
        let ran = report(&["--json"], input.as_bytes());
        let found = read(&ran.output);
        assert_eq!((found.keys(), ran.status), (REPORT_KEYS.to_vec(), Some(2)));
        assert_eq!((found.get("tally"), found.get("words").number()), (&Json::Bool(false), words));
        assert_eq!([found.get("calls"), found.get("functions")], [&Json::Null; 2]);
        assert!(!found.get("alarms").list().is_empty());
    }
}
