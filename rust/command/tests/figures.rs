//! Every number of a report is held to its input: of the sample, and of random tallies.

mod common;

use common::answers::refusals;
use common::drawn::{bars, chart, lengths, lines, pages, signs, strength, styles};
use common::expected::{numbers, HTML, TEXT};
use common::facts::{random_tally, Facts};
use common::markup::{sections, Section, Tag};
use common::{report, Random, Scratch, ROOT};
use std::collections::BTreeMap;
use std::fs;

/// A tally with names and prices, in files and as facts.
struct Case {
    facts: Facts,
    tally: String,
    files: Vec<(&'static str, Scratch)>,
}

impl Case {
    fn new(tally: String, names: Option<BTreeMap<u64, String>>, prices: Option<BTreeMap<u64, u64>>) -> Case {
        let mut facts = Facts::of(&tally);
        let mut files = vec![];
        if let Some(names) = names {
            let text: String = names.iter().map(|(function, name)| format!("{function} {name}\n")).collect();
            files.push(("--names", Scratch::new(text.as_bytes())));
            facts.names = names;
        }
        if let Some(prices) = prices {
            let text: String = prices.iter().map(|(function, price)| format!("{function} {price}\n")).collect();
            files.push(("--prices", Scratch::new(text.as_bytes())));
            facts.prices = Some(prices);
        }
        Case { facts, tally, files }
    }

    fn report(&self, more: &[&str]) -> String {
        let files = self.files.iter().flat_map(|(option, file)| [*option, file.name()]);
        report(&files.chain(more.iter().copied()).collect::<Vec<_>>(), self.tally.as_bytes()).whole()
    }

    fn check(&self) {
        let page = sections(&self.report(&[]));
        let parts = HTML.parts(&self.facts, &refusals());
        let headings: Vec<&str> = page[1..page.len() - 1].iter().map(|section| section.heading.as_str()).collect();
        assert_eq!(headings, parts.iter().map(|(heading, _)| *heading).collect::<Vec<_>>());
        for (section, (heading, expected)) in page[1..].iter().zip(&parts) {
            assert_eq!(&numbers(&section.text, HTML.separator), expected, "{heading}");
        }
        assert_eq!(numbers(&page[0].text, HTML.separator), alarm(&self.facts));
        assert_eq!(numbers(&page.last().unwrap().text, HTML.separator), ["0"]);
        self.drawn(&page);
        let text = self.report(&["--text"]);
        assert!(text.lines().all(|line| line.chars().count() <= 80 && !line.ends_with(' ')));
        for ((heading, expected), part) in TEXT.parts(&self.facts, &refusals()).into_iter().zip(texts(&text)) {
            assert_eq!((heading, numbers(&part.1, TEXT.separator)), (part.0.as_str(), expected));
        }
        self.signs(&texts(&text));
    }

    /// The text's bars have the lengths of the numbers, and its map has the functions that were called.
    fn signs(&self, parts: &[(String, String)]) {
        let facts = &self.facts;
        let part = |heading: &str| parts.iter().find(|part| part.0 == heading).unwrap().1.as_str();
        let words = facts.words.len() as u128;
        let refused = words - u128::from(facts.taken + facts.again);
        let kinds = [facts.taken.into(), facts.again.into(), refused];
        assert_eq!(signs(part("The run")), lines(kinds.map(|kind| (kind, words)), 40));
        let ranked = facts.ranked();
        let calls = ranked.iter().map(|one| (one.1.into(), ranked[0].1.into()));
        assert_eq!(signs(part("Functions by calls")), lines(calls, if facts.names.is_empty() { 32 } else { 12 }));
        let rates: Vec<(u128, u128)> =
            facts.coarse(16).iter().map(|s| (s.restored.into(), (s.last + 1 - s.first - s.refused).into())).collect();
        let some = rates.iter().copied().filter(|rate| rate.1 > 0);
        let most = some.reduce(|a, b| if b.0 * a.1 > a.0 * b.1 { b } else { a }).unwrap_or((0, 0));
        let weights = facts.weights();
        let heaviest = weights.iter().copied().max().unwrap_or(0);
        let mut expected = lines(rates.iter().map(|rate| (rate.0 * most.1, rate.1 * most.0)), 24);
        expected.extend(lines(weights.iter().map(|&words| (words.into(), heaviest.into())), 40));
        assert_eq!(signs(part("Symbols restored over the run")), expected);
        let rows = part("Coverage").lines().map(|line| line.split_whitespace().collect::<Vec<_>>());
        let map: Vec<&str> = rows
            .filter(|row| row.len() == 17 && row[1..].concat().len() == 16)
            .flat_map(|row| row[1..].to_vec())
            .collect();
        let sign = |function: u64| if facts.calls.contains_key(&function) { "#" } else { "." };
        assert_eq!(map[1..], (1..256).map(sign).collect::<Vec<_>>());
    }

    /// What is drawn has the lengths of the numbers.
    fn drawn(&self, page: &[Section]) {
        let facts = &self.facts;
        let part = |heading: &str| page.iter().find(|section| section.heading == heading).unwrap();
        let calls: Vec<u128> = facts.ranked().iter().map(|&(_, calls)| calls.into()).collect();
        assert_eq!(bars(part("Functions by calls")), lengths(&calls));
        if facts.prices.is_some() {
            assert_eq!(bars(part("Energy")), lengths(&facts.parts().iter().map(|part| part.3).collect::<Vec<_>>()));
        }
        let weights: Vec<u128> = facts.weights().into_iter().map(u128::from).collect();
        assert_eq!(bars(part("Symbols restored over the run")), lengths(&weights));
        let read = facts.taken + facts.again;
        let kinds = [facts.taken, facts.again, facts.words.len() as u64 - read].map(|number| format!("flex:{number}"));
        let shown: Vec<&String> = kinds.iter().filter(|kind| *kind != "flex:0").collect();
        assert_eq!(styles(part("The run"), "flex:"), shown);
        let refused = &part("Refused words").text;
        for refusal in refusals().iter().filter(|refusal| facts.refused.contains_key(&refusal.number)) {
            assert!(refused.contains(&refusal.when) && refused.contains(&refusal.advice), "{}", refusal.number);
        }
        self.map(part("Coverage"));
        pages(part("Pages"), facts);
        chart(part("Symbols restored over the run"), facts);
        self.named(page);
    }

    /// The map of coverage: which cells are filled, how strongly, and what each says.
    fn map(&self, section: &Section) {
        let cells: Vec<&Tag> = section.tags.iter().filter(|tag| tag.attribute("title").is_some()).collect();
        let most = self.facts.calls.values().max().copied().unwrap_or(0);
        for (function, cell) in cells.iter().enumerate().skip(1) {
            let name = self.facts.names.get(&(function as u64)).map_or(String::new(), |name| format!(" {name}"));
            let (class, said) = match self.facts.calls.get(&(function as u64)) {
                None => ("no".to_string(), "not called".to_string()),
                Some(1) => (format!("c{}", strength(1, most)), "1 call".to_string()),
                Some(&calls) => {
                    let number = numbers(cell.attribute("title").unwrap(), HTML.separator).pop().unwrap();
                    assert_eq!(number.replace(HTML.separator, ""), calls.to_string());
                    (format!("c{}", strength(calls, most)), format!("{number} calls"))
                }
            };
            assert_eq!(cell.attribute("class"), Some(class.as_str()));
            assert_eq!(cell.attribute("title").unwrap(), format!("{function}{name}: {said}"));
        }
        assert_eq!(cells.len(), 256);
    }

    /// Each name stands beside its function.
    fn named(&self, page: &[Section]) {
        let rows = page.iter().find(|section| section.heading == "Functions by calls").unwrap();
        for (function, name) in self.facts.names.iter().filter(|(function, _)| self.facts.calls.contains_key(function))
        {
            assert!(format!("\n{}", rows.text).contains(&format!("\n{function}\n{name}\n")), "{function} {name}");
        }
    }
}

/// What is said first, if every word was refused: it names line 2, unless every line is malformed.
fn alarm(facts: &Facts) -> Vec<String> {
    let all = facts.taken + facts.again == 0 && facts.refused.keys().any(|&refusal| refusal != 10);
    if all {
        vec!["2".to_string()]
    } else {
        vec![]
    }
}

/// The parts of a text with their headings.
fn texts(text: &str) -> Vec<(String, String)> {
    let mut parts: Vec<(String, String)> = vec![];
    let lines: Vec<&str> = text.lines().collect();
    for (place, line) in lines.iter().enumerate() {
        let under = |line: &str| !line.is_empty() && line.chars().all(|c| c == '-');
        if lines.get(place + 1).is_some_and(|next| under(next)) {
            parts.push((line.to_string(), String::new()));
        } else if let Some((_, part)) = parts.last_mut() {
            *part += &format!("{line}\n");
        }
    }
    parts
}

fn sample() -> String {
    fs::read_to_string(format!("{ROOT}/samples/capture.tally")).expect("the sample is there")
}

#[test]
fn the_sample() {
    Case::new(sample(), None, None).check();
    let list = |name: &str| fs::read_to_string(format!("{ROOT}/samples/{name}")).expect("the sample's lists are there");
    let pairs = |text: String| {
        text.lines()
            .map(|line| line.split_once(' ').map(|(f, x)| (f.parse().unwrap(), x.to_string())).unwrap())
            .collect()
    };
    let names: BTreeMap<u64, String> = pairs(list("names.txt"));
    let prices: BTreeMap<u64, String> = pairs(list("prices.txt"));
    let prices = prices.into_iter().map(|(function, price)| (function, price.parse().unwrap())).collect();
    // Digits of names would be taken for figures.
    let names =
        names.into_iter().map(|(function, name)| (function, name.replace(|c: char| c.is_ascii_digit(), ""))).collect();
    Case::new(sample(), Some(names), Some(prices)).check();
}

#[test]
fn random_tallies() {
    let numbers: Vec<u64> = refusals().iter().map(|refusal| refusal.number).collect();
    for seed in 0..120 {
        let mut random = Random(seed);
        let tally = random_tally(&mut random, &numbers);
        let some = random.pick(&[1, 2, 9]);
        let large = random.below(3) == 0;
        let mut names = BTreeMap::new();
        let mut prices = BTreeMap::new();
        for function in 0..256 {
            if random.below(some) == 0 {
                names.insert(function, random.pick(&["main", "on tick", "uart::send<T>", "a & b"]).to_string());
            }
            if random.below(some) == 0 {
                prices.insert(function, if large { random.number().into() } else { random.below(5000) });
            }
        }
        let names = (random.below(3) > 0).then_some(names);
        let prices = (random.below(3) > 0).then_some(prices);
        Case::new(tally, names, prices).check();
    }
}

#[test]
fn a_bill_is_rounded_up_once() {
    let tally = "outcome page fixed\nfunction calls\n1 1\n2 1\n3 1\n";
    for (prices, bill) in
        [("1 1\n2 1\n3 1\n", "1"), ("1 400\n2 400\n3 200\n", "1"), ("1 400\n2 400\n3 201\n", "2"), ("0 9\n", "0")]
    {
        let file = Scratch::new(prices.as_bytes());
        let text = report(&["--text", "--prices", file.name()], tally.as_bytes()).whole();
        assert!(text.contains(&format!("The bill is {bill} pJ.")), "{text}");
        assert!(text.contains("rounded up to whole picojoules once, at the end"));
    }
}

#[test]
fn units_of_a_bill() {
    let bills = [
        (999, 1000, "999 pJ."),
        (1000, 1000, "1.000 nJ (1000 pJ)."),
        (1_234_567, 1000, "1.235 µJ (1,234,567 pJ)."),
        (999_999_999, 1000, "1000.000 µJ (999,999,999 pJ)."),
        (u32::MAX, u32::MAX, "18,446,744.065 mJ (18,446,744,065,119,618 pJ)."),
    ];
    for (calls, price, said) in bills {
        let file = Scratch::new(format!("9 {price}\n").as_bytes());
        let tally = format!("outcome page fixed\nfunction calls\n9 {calls}\n");
        let text = report(&["--text", "--prices", file.name()], tally.as_bytes()).whole();
        assert!(text.contains(&format!("The bill is {said}\n")), "{text}");
    }
}

#[test]
fn half_of_the_calls() {
    let cases =
        [("1 2\n2 1\n3 1\n", None), ("1 1\n2 1\n3 1\n4 1\n", Some(2)), ("1 3\n2 2\n3 2\n", Some(2)), ("7 9\n", None)];
    for (counts, first) in cases {
        let tally = format!("outcome page fixed\nfunction calls\n{counts}");
        let text = report(&["--text"], tally.as_bytes()).whole().replace('\n', " ");
        let said = first.map(|first| format!("The first {first} functions have half of all calls."));
        assert_eq!(text.contains("half of all calls"), said.is_some(), "{counts}");
        assert!(said.iter().all(|said| text.contains(said)), "{counts}");
    }
}
