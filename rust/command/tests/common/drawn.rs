//! What is drawn: bars, maps and the chart of a page, bars of a text.

use super::expected::numbers;
use super::facts::Facts;
use super::markup::{Section, Tag};
use std::collections::BTreeSet;

/// One more than how many of five equal parts of the most calls' binary digits lie below those of the calls.
pub fn strength(calls: u64, most: u64) -> usize {
    let digits = |number: u64| format!("{number:b}").len();
    (1..5).filter(|part| (digits(calls) - 1) * 5 >= part * digits(most)).count() + 1
}

pub fn styles<'a>(section: &'a Section, prefix: &str) -> Vec<&'a str> {
    section.tags.iter().filter_map(|tag| tag.attribute("style")).filter(|style| style.starts_with(prefix)).collect()
}

pub fn bars(section: &Section) -> Vec<String> {
    styles(section, "--s:").iter().map(|style| style["--s:".len()..].to_string()).collect()
}

/// In percent of the longest, to a tenth.
pub fn lengths(of: &[u128]) -> Vec<String> {
    let longest = of.iter().copied().max().unwrap_or(0).max(1);
    let tenths = |&one: &u128| one * 1000 / longest + u128::from(one * 1000 % longest * 2 >= longest);
    of.iter().map(tenths).map(|tenths| format!("{}.{}%", tenths / 10, tenths % 10)).collect()
}

/// The map of pages has exactly the pages that came, and exactly those that are missing.
pub fn pages(section: &Section, facts: &Facts) {
    for (class, expected) in [("came", facts.came.clone()), ("missing", facts.missing().into_iter().collect())] {
        let paths = section.tags.iter().filter(|tag| tag.attribute("class") == Some(class));
        let drawn: BTreeSet<u64> = paths.flat_map(|path| cells(path.attribute("d").unwrap())).collect();
        assert_eq!(drawn, expected, "{class}");
    }
}

/// The cells of bars that are drawn as `Mx yhnv1h-nz`.
fn cells(path: &str) -> Vec<u64> {
    let mut cells = vec![];
    for bar in path.split('M').skip(1) {
        let numbers: Vec<u64> =
            numbers(bar, ' ').iter().flat_map(|pair| pair.split(' ').map(|n| n.parse().unwrap())).collect();
        let [x, y, length, 1, back] = numbers[..] else { panic!("{bar}") };
        assert_eq!(length, back);
        cells.extend((x..x + length).map(|x| 64 * y + x));
    }
    cells
}

/// Heights of the chart's bars, to a hundredth.
pub fn chart(section: &Section, facts: &Facts) {
    let stretches = facts.stretches();
    let read = |place: usize| stretches[place].last - stretches[place].first + 1 - stretches[place].refused;
    let rate = |place: usize| stretches[place].restored as f64 / read(place).max(1) as f64;
    let most = (0..stretches.len()).map(rate).fold(0.0, f64::max);
    let mut expected = vec![];
    for (place, stretch) in stretches.iter().enumerate() {
        let words = (stretch.last - stretch.first + 1) as f64;
        let (up, down) = ((rate(place) / most * 76.0).max(1.0), (stretch.refused as f64 / words * 24.0).max(2.0));
        let x = place as f64 + 0.08;
        expected.extend((stretch.restored > 0).then_some(("restored", [x, 76.0 - up, up])));
        expected.extend((stretch.refused > 0).then_some(("lost", [x, 76.0, down])));
    }
    let bars = section.tags.iter().filter(|tag| tag.name == "rect" && tag.attribute("class") != Some("base"));
    let drawn: Vec<&Tag> = bars.collect();
    assert_eq!(drawn.len(), expected.len());
    for (tag, (class, values)) in drawn.iter().zip(expected) {
        assert_eq!(tag.attribute("class"), Some(class));
        for (name, value) in ["x", "y", "height"].iter().zip(values) {
            let drawn: f64 = tag.attribute(name).unwrap().parse().unwrap();
            assert!((drawn - value).abs() < 0.0051, "{name}: {drawn}, not {value}");
        }
    }
}

/// How many signs each bar has.
pub fn signs(part: &str) -> Vec<u128> {
    part.lines().map(|line| line.matches('#').count() as u128).filter(|&signs| signs > 0).collect()
}

/// How many signs the bars of these parts of the longest have, if it has `length`: at least one, if there is anything.
pub fn lines(parts: impl IntoIterator<Item = (u128, u128)>, length: u128) -> Vec<u128> {
    let some = parts.into_iter().filter(|&(part, _)| part > 0);
    let signs = |(part, longest): (u128, u128)| {
        let (signs, rest) = (part * length / longest, part * length % longest);
        (signs + u128::from(rest * 2 >= longest)).max(1)
    };
    some.map(signs).collect()
}
