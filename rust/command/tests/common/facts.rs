//! What a report has to say, computed here from the text of the tally, another way than the program's.

use super::Random;
use std::cmp::Reverse;
use std::collections::{BTreeMap, BTreeSet};

/// Words one after another: first, last, refused, symbols restored.
#[derive(Clone, Copy, Debug)]
pub struct Stretch {
    pub first: u64,
    pub last: u64,
    pub refused: u64,
    pub restored: u64,
}

#[derive(Default, Clone)]
pub struct Facts {
    /// For each word: symbols restored, or None if it was refused.
    pub words: Vec<Option<u64>>,
    pub taken: u64,
    pub again: u64,
    pub came: BTreeSet<u64>,
    /// Lines of the capture, by number of the refusal.
    pub refused: BTreeMap<u64, Vec<u64>>,
    /// By function.
    pub calls: BTreeMap<u64, u64>,
    pub prices: Option<BTreeMap<u64, u64>>,
    pub names: BTreeMap<u64, String>,
}

impl Facts {
    pub fn of(tally: &str) -> Facts {
        let mut facts = Facts::default();
        let (answers, counts) = tally.split_once("function calls\n").expect("it is a tally");
        for line in answers.lines().skip(1) {
            let fields: Vec<&str> = line.split(' ').collect();
            let (number, restored): (u64, u64) = (fields[1].parse().unwrap(), fields[2].parse().unwrap());
            facts.words.push((fields[0] != "refused").then_some(restored));
            match fields[0] {
                "taken" => assert!(facts.came.insert(number)),
                "again" => facts.again += 1,
                _ => facts.refused.entry(number).or_default().push(facts.words.len() as u64 + 3),
            }
        }
        facts.taken = facts.came.len() as u64;
        let pair = |line: &str| line.split_once(' ').map(|(f, c)| (f.parse().unwrap(), c.parse().unwrap())).unwrap();
        facts.calls = counts.lines().map(pair).collect();
        facts
    }

    /// The most called first.
    pub fn ranked(&self) -> Vec<(u64, u64)> {
        let mut ranked: Vec<(u64, u64)> = self.calls.iter().map(|(&function, &calls)| (function, calls)).collect();
        ranked.sort_by_key(|&(_, calls)| Reverse(calls));
        ranked
    }

    /// Function, calls, price, and calls times price; the dearest first.
    pub fn parts(&self) -> Vec<(u64, u64, Option<u64>, u128)> {
        let prices = self.prices.clone().unwrap_or_default();
        let part = |(&function, &calls): (&u64, &u64)| {
            let price = prices.get(&function).copied();
            (function, calls, price, u128::from(calls) * u128::from(price.unwrap_or(0)))
        };
        let mut parts: Vec<_> = self.calls.iter().map(part).collect();
        parts.sort_by_key(|part| Reverse(part.3));
        parts
    }

    /// The run in stretches of the shortest power of two that makes no more than 128 of them.
    pub fn stretches(&self) -> Vec<Stretch> {
        let mut length = 1;
        while self.words.len().div_ceil(length) > 128 {
            length *= 2;
        }
        self.cut(length)
    }

    /// Some of these stretches together, so that there are no more than `most`.
    pub fn coarse(&self, most: usize) -> Vec<Stretch> {
        let fine = self.stretches();
        let Some(first) = fine.first() else { return vec![] };
        let mut together = 1;
        while fine.len().div_ceil(together) > most {
            together += 1;
        }
        self.cut((first.last - first.first + 1) as usize * together)
    }

    fn cut(&self, length: usize) -> Vec<Stretch> {
        let stretch = |(place, words): (usize, &[Option<u64>])| {
            let first = (place * length) as u64 + 1;
            let refused = words.iter().filter(|word| word.is_none()).count() as u64;
            Stretch { first, last: first + words.len() as u64 - 1, refused, restored: words.iter().flatten().sum() }
        };
        self.words.chunks(length).enumerate().map(stretch).collect()
    }

    /// Words read, by symbols restored.
    pub fn weights(&self) -> Vec<u64> {
        let most = self.words.iter().flatten().max().map_or(0, |most| most + 1);
        (0..most).map(|symbols| self.words.iter().filter(|&&word| word == Some(symbols)).count() as u64).collect()
    }

    pub fn missing(&self) -> Vec<u64> {
        let up_to = self.came.iter().max().map_or(0, |highest| highest + 1);
        (0..up_to).filter(|page| !self.came.contains(page)).collect()
    }
}

/// Any tally: words of every kind, and calls that have nothing to do with them.
pub fn random_tally(random: &mut Random, refusals: &[u64]) -> String {
    let words = random.pick(&[0, 1, 2, 40, 128, 129, 300, 1000, 4000]);
    let pages = random.pick(&[1, 5, 200, 1024]);
    let often = random.pick(&[1, 3, 50]);
    let mut came = BTreeSet::new();
    let mut tally = "outcome page fixed\n".to_string();
    for _ in 0..words {
        let (page, restored) = (random.below(pages), random.below(often).min(random.below(8)));
        if random.below(often) == 0 {
            tally += &format!("refused {} 0\n", random.pick(refusals));
        } else if came.insert(page) {
            tally += &format!("taken {page} {restored}\n");
        } else {
            tally += &format!("again {page} {restored}\n");
        }
    }
    tally += "function calls\n";
    let rare = random.pick(&[1, 2, 30, 1000]);
    let large = random.below(4) == 0;
    for function in 1..256 {
        let calls = if large { random.number() } else { random.below(3000) as u32 };
        if random.below(rare) == 0 && calls > 0 {
            tally += &format!("{function} {calls}\n");
        }
    }
    tally
}
