//! `shaftglimmer diff`: two tallies compared, each number held to its input.

mod common;

use common::facts::random_tally;
use common::json::{self, Json};
use common::markup::sections;
use common::{run, Random, Scratch, ROOT};
use std::collections::BTreeMap;

const BEFORE: &str = "outcome page fixed\ntaken 0 0\nrefused 4 0\nfunction calls\n1 10\n2 20000\n3 5\n9 4\n";
const AFTER: &str = "outcome page fixed\ntaken 0 0\ntaken 1 0\nfunction calls\n1 10\n2 500\n4 7\n9 5\n";

fn diff(arguments: &[&str], before: &str, after: &str) -> String {
    let files = [before, after].map(|tally| Scratch::new(tally.as_bytes()));
    run(&[&["diff"], arguments, &[files[0].name(), files[1].name()]].concat(), b"").whole()
}

/// The text behind the two lines that name the files.
fn body(text: &str) -> String {
    text.lines().skip(3).map(|line| format!("{line}\n")).collect()
}

#[test]
fn a_text() {
    let names = Scratch::new(b"2 memcpy\r\n4 new one\r\n");
    let expected = "
The runs
--------
                  before  after   change
           words       2      2        0
     pages taken       1      2       +1
   words refused       1      0       -1
functions called       4      4        0
           calls  20,019    522  -19,497

Functions by change of calls
----------------------------
4 functions are called more or less often than before. The runs have 1 and 2
pages, so compare shares rather than calls.
The last two numbers are the share of all calls that it was, and is.
function  before  after   change    was     is
       2  20,000    500  -19,500  99.9%  95.8%  ########  memcpy
       4       0      7       +7     0%   1.3%  #         new one
       3       5      0       -5  <0.1%     0%  #
       9       4      5       +1  <0.1%   1.0%  #
New: 4
Gone: 3
Called as often as before: 1
";
    let text = diff(&["--text", "--names", names.name()], BEFORE, AFTER);
    assert_eq!(body(&text), expected);
    let head: Vec<&str> = text.lines().take(3).collect();
    assert!(head[0] == "Tallies compared" && head[1].starts_with("before: ") && head[2].starts_with("after: "));
    let same = diff(&["--text"], BEFORE, BEFORE);
    assert!(same.contains("No function is called more or less often than before.\nNew: none\nGone: none\n"), "{same}");
}

#[test]
fn a_page() {
    let names = Scratch::new(b"2 <b>memcpy\n");
    let page = diff(&["--names", names.name()], BEFORE, AFTER);
    let parts = sections(&page);
    let headings: Vec<&str> = parts.iter().map(|part| part.heading.as_str()).collect();
    assert_eq!(headings, ["", "The runs", "Functions by change of calls", ""]);
    let rows = &parts[2].text;
    let row = "\n2\n<b>memcpy\n20\u{202f}000\n500\n\u{2212}19\u{202f}500\n99.9%\n95.8%\n4\n0\n7\n+7\n0%\n1.3%\n";
    assert!(rows.contains(row), "{rows}");
    let bars: Vec<&str> = parts[2].tags.iter().filter_map(|tag| tag.attribute("style")).collect();
    assert_eq!(bars, ["--s:100.0%", "--s:0.0%", "--s:0.0%", "--s:0.0%"]);
    let rows = parts[2].tags.iter().filter(|tag| tag.attribute("style").is_some());
    assert_eq!(rows.filter_map(|tag| tag.attribute("class")).collect::<Vec<_>>(), ["fewer", "more", "fewer", "more"]);
}

fn counts(tally: &str) -> BTreeMap<i128, i128> {
    let (_, counts) = tally.split_once("function calls\n").expect("a tally");
    let pair = |line: &str| line.split_once(' ').map(|(f, c)| (f.parse().unwrap(), c.parse().unwrap())).unwrap();
    counts.lines().map(pair).collect()
}

/// Changes, new, gone and the same, of any two tallies.
#[test]
fn random_tallies() {
    for seed in 0..60 {
        let mut random = Random(seed);
        let [before, after] = [0, 1].map(|_| random_tally(&mut random, &[2, 4, 10]));
        let [first, second] = [&before, &after].map(|tally| counts(tally));
        let of = |counts: &BTreeMap<i128, i128>, function: i128| counts.get(&function).copied().unwrap_or(0);
        let found = json::read(&diff(&["--json"], &before, &after));
        let mut changes: Vec<(i128, i128)> = (1..256).map(|f| (f, of(&second, f) - of(&first, f))).collect();
        changes.retain(|&(_, change)| change != 0);
        changes.sort_by_key(|&(function, change)| (-change.abs(), function));
        let pair = |one: &Json| (one.get("function").number(), one.get("change").number());
        assert_eq!(found.get("changes").list().iter().map(pair).collect::<Vec<_>>(), changes);
        for (key, wanted) in [("new", [false, true]), ("gone", [true, false])] {
            let listed =
                found.get(key).list().iter().flat_map(|range| range.list()[0].number()..=range.list()[1].number());
            let expected = (1..256).filter(|f| [first.contains_key(f), second.contains_key(f)] == wanted);
            assert_eq!(listed.collect::<Vec<_>>(), expected.collect::<Vec<_>>(), "{key}");
        }
        assert_eq!(found.get("before").get("calls").number(), first.values().sum::<i128>());
        let text = diff(&["--text"], &before, &after);
        assert!(text.lines().all(|line| line.chars().count() <= 80));
        sections(&diff(&[], &before, &after));
    }
}

#[test]
fn captures_and_standard_input() {
    let capture = format!("{ROOT}/samples/capture.txt");
    let tally = format!("{ROOT}/samples/capture.tally");
    let text = run(&["diff", "--text", &capture, &tally], b"").whole();
    assert!(text.contains("No function is called more or less often than before."), "{text}");
    let text = run(&["diff", "-", &tally, "--text"], BEFORE.as_bytes()).whole();
    assert!(text.contains("before: standard input\n"));
}

#[test]
fn what_is_refused() {
    let tally = Scratch::new(BEFORE.as_bytes());
    let cut = Scratch::new(b"outcome page fixed\ntaken 1 0\n");
    let name = tally.name();
    let wrong: [(&[&str], &str); 6] = [
        (&[], "diff: two tallies are compared"),
        (&[name], "diff: two tallies are compared"),
        (&[name, name, name], "diff: two tallies are compared"),
        (&["-", "-"], "-: standard input can be one of the two"),
        (&[name, "/no/such/file"], "/no/such/file: "),
        (&["--prices", name, name, name], "--prices: there is no such option"),
    ];
    for (arguments, said) in wrong {
        let ran = run(&[&["diff"], arguments].concat(), b"");
        assert!(ran.complaint().starts_with(said), "{arguments:?}: {}", ran.error);
    }
    for pair in [[name, cut.name()], [cut.name(), name]] {
        let ran = run(&[&["diff"], &pair[..]].concat(), b"");
        assert!(ran.complaint().starts_with(&format!("{}: This is no tally: ", cut.name())), "{}", ran.error);
    }
}
