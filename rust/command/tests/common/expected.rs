//! The numbers that a report must have, in their order, part by part; and those that a text has.

use super::answers::Refusal;
use super::facts::{Facts, Stretch};

/// Everything in a text that begins with a digit: digits with separators and a point between them, with a sign before
/// them if it stands for 'less than' or 'more than', and with the percent sign behind them.
pub fn numbers(text: &str, separator: char) -> Vec<String> {
    let chars: Vec<char> = text.chars().collect();
    let digit = |place: usize| chars.get(place).is_some_and(char::is_ascii_digit);
    let mut found = vec![];
    let mut place = 0;
    while place < chars.len() {
        if !digit(place) {
            place += 1;
            continue;
        }
        let mut number = String::new();
        if place > 0 && matches!(chars[place - 1], '<' | '>') {
            number.push(chars[place - 1]);
        }
        while digit(place) || (digit(place + 1) && matches!(chars[place], c if c == '.' || c == separator)) {
            number.push(chars[place]);
            place += 1;
        }
        if chars.get(place) == Some(&'%') {
            number.push('%');
        }
        found.push(number);
    }
    found
}

/// How a report writes numbers, and what only a page or only a text has.
#[derive(Clone, Copy)]
pub struct Kind {
    pub html: bool,
    pub separator: char,
}

pub const HTML: Kind = Kind { html: true, separator: '\u{202f}' };
pub const TEXT: Kind = Kind { html: false, separator: ',' };

type Numbers = Vec<String>;

impl Kind {
    fn number(self, number: impl Into<u128>) -> String {
        let digits: Vec<char> = number.into().to_string().chars().rev().collect();
        if digits.len() < 5 {
            return digits.into_iter().rev().collect();
        }
        let groups: Vec<String> = digits.chunks(3).map(|group| group.iter().collect()).collect();
        groups.join(&self.separator.to_string()).chars().rev().collect()
    }

    /// First and last number of each range, or the only one.
    fn ranges(self, numbers: &[u64]) -> Numbers {
        bounds(numbers).into_iter().flat_map(|(first, last)| self.range(first, last)).collect()
    }

    fn range(self, first: u64, last: u64) -> Numbers {
        if first == last {
            vec![self.number(first)]
        } else {
            vec![self.number(first), self.number(last)]
        }
    }

    /// The parts with their headings.
    pub fn parts(self, facts: &Facts, refusals: &[Refusal]) -> Vec<(&'static str, Numbers)> {
        let mut parts = vec![("The run", self.run(facts)), ("Functions by calls", self.functions(facts))];
        if facts.prices.is_some() {
            parts.push(("Energy", self.energy(facts, refusals)));
        }
        parts.push(("Coverage", self.coverage(facts)));
        parts.push(("Refused words", self.refused(facts, refusals)));
        parts.push(("Pages", self.pages(facts)));
        parts.push(("Symbols restored over the run", self.restored(facts)));
        parts
    }

    fn run(self, facts: &Facts) -> Numbers {
        let words = facts.words.len() as u128;
        let refused = words - u128::from(facts.taken + facts.again);
        let mut numbers = vec![self.number(words)];
        for kind in [facts.taken.into(), facts.again.into(), refused] {
            numbers.extend([self.number(kind), share(kind, words)]);
        }
        if self.html {
            numbers.extend([facts.calls.len().to_string(), "255".to_string(), self.number(all_calls(facts))]);
            numbers.extend(bill(facts).and_then(Result::ok).map(|bill| self.easy(bill)));
        }
        numbers.extend(self.most_called(facts));
        numbers
    }

    fn most_called(self, facts: &Facts) -> Numbers {
        let ranked = facts.ranked();
        let Some(&(function, calls)) = ranked.first() else { return vec![] };
        let all = all_calls(facts);
        let mut sum = 0;
        let mut half = 0;
        while sum * 2 < all {
            sum += u128::from(ranked[half].1);
            half += 1;
        }
        let mut numbers = vec![function.to_string(), self.number(calls), self.number(all), share(calls.into(), all)];
        numbers.extend((half > 1).then(|| half.to_string()));
        numbers
    }

    fn functions(self, facts: &Facts) -> Numbers {
        let all = all_calls(facts);
        let mut running = 0;
        let mut numbers = vec![];
        for (function, calls) in facts.ranked() {
            running += u128::from(calls);
            numbers.extend([function.to_string(), self.number(calls), share(calls.into(), all), share(running, all)]);
        }
        numbers.extend(self.folded(facts.calls.len()));
        numbers
    }

    /// What stands under a table of which only the first 20 rows are shown.
    fn folded(self, rows: usize) -> Numbers {
        if self.html && rows > 24 {
            vec![rows.to_string(), "20".to_string()]
        } else {
            vec![]
        }
    }

    fn energy(self, facts: &Facts, refusals: &[Refusal]) -> Numbers {
        let parts = facts.parts();
        let sum: u128 = parts.iter().map(|part| part.3).sum();
        let mut numbers = match bill(facts).expect("there are prices") {
            Ok(bill) if bill < 1000 => vec![self.number(bill), self.number(sum)],
            Ok(bill) => vec![self.easy(bill), self.number(bill), self.number(sum)],
            Err(refusal) => {
                let advice = &refusals.iter().find(|one| one.number == refusal).expect("it has advice").advice;
                [vec![refusal.to_string()], self.said(advice)].concat()
            }
        };
        let mut unpriced: Vec<u64> = parts.iter().filter(|part| part.2.is_none()).map(|part| part.0).collect();
        unpriced.sort();
        if !unpriced.is_empty() {
            numbers.push(unpriced.len().to_string());
            numbers.extend(self.ranges(&unpriced));
        }
        for (function, calls, price, cost) in &parts {
            numbers.extend([function.to_string(), self.number(*calls)]);
            numbers.extend(price.map(|price| self.number(price)));
            numbers.extend([self.number(*cost), share(*cost, sum)]);
        }
        numbers.extend(self.folded(parts.len()));
        numbers
    }

    /// Picojoules below 1000 as they are; otherwise to three places in nJ, µJ or mJ.
    fn easy(self, picojoules: u128) -> String {
        if picojoules < 1000 {
            return self.number(picojoules);
        }
        let place = (picojoules.to_string().len() as u32 - 1) / 3;
        let size = 1000u128.pow(place.min(3));
        let (down, rest) = (picojoules * 1000 / size, picojoules * 1000 % size);
        let thousandths = down + u128::from(rest * 2 >= size);
        format!("{}.{:03}", self.number(thousandths / 1000), thousandths % 1000)
    }

    fn said(self, text: &str) -> Numbers {
        numbers(text, self.separator)
    }

    fn coverage(self, facts: &Facts) -> Numbers {
        let uncalled: Vec<u64> = (1..256).filter(|function| !facts.calls.contains_key(function)).collect();
        let mut numbers = vec![facts.calls.len().to_string(), "255".to_string()];
        numbers.extend(self.html.then(|| "16".to_string()));
        numbers.extend((0..16).map(|column: u32| column.to_string()));
        for row in 0..16 {
            numbers.push((16 * row).to_string());
            if self.html {
                numbers.extend((16 * row..16 * row + 16).filter(|&cell| cell != 0).map(|cell: u32| cell.to_string()));
            }
        }
        numbers.extend(self.ranges(&uncalled));
        numbers
    }

    fn pages(self, facts: &Facts) -> Numbers {
        let Some(highest) = facts.came.iter().max() else { return vec![] };
        let came: Vec<u64> = facts.came.iter().copied().collect();
        let missing = facts.missing();
        let mut numbers = vec![self.number(came.len() as u64), highest.to_string()];
        numbers.extend((!missing.is_empty()).then(|| self.number(missing.len() as u64)));
        numbers.extend(self.html.then(|| ["64".to_string(), "0".to_string()]).into_iter().flatten());
        numbers.extend(self.ranges(&came));
        numbers.extend(self.ranges(&missing));
        numbers
    }

    fn restored(self, facts: &Facts) -> Numbers {
        let read = facts.taken + facts.again;
        let symbols: u64 = facts.words.iter().flatten().sum();
        let damaged = facts.words.iter().filter(|word| word.is_some_and(|symbols| symbols > 0)).count() as u64;
        let mut numbers = match (read, symbols) {
            (0, _) => vec![],
            (_, 0) => vec![self.number(read)],
            _ => [symbols, damaged, read].map(|n| self.number(n)).to_vec(),
        };
        if facts.words.is_empty() {
            return numbers;
        }
        if self.html {
            let highest = facts.stretches().iter().map(hundredths).max().expect("there are words");
            numbers.push(format!("{}.{:02}", highest / 100, highest % 100));
            numbers.extend(["1".to_string(), self.number(facts.words.len() as u64)]);
        }
        for stretch in facts.coarse(if self.html { 8 } else { 16 }) {
            numbers.extend(self.range(stretch.first, stretch.last));
            let rate = hundredths(&stretch);
            numbers.extend([self.number(stretch.restored), format!("{}.{:02}", rate / 100, rate % 100)]);
            numbers.push(self.number(stretch.refused));
        }
        for (symbols, words) in facts.weights().into_iter().enumerate() {
            numbers.extend([symbols.to_string(), self.number(words), share(words.into(), read.into())]);
        }
        numbers
    }

    fn refused(self, facts: &Facts, refusals: &[Refusal]) -> Numbers {
        let mut numbers = vec![];
        for (&number, lines) in &facts.refused {
            let refusal = refusals.iter().find(|refusal| refusal.number == number).expect("it is in the table");
            numbers.extend([number.to_string(), self.number(lines.len() as u64)]);
            numbers.extend(self.said(&refusal.when));
            numbers.extend(self.said(&refusal.advice));
            let ranges = bounds(lines);
            let shown = &ranges[..ranges.len().min(12)];
            numbers.extend(shown.iter().flat_map(|&(first, last)| self.range(first, last)));
            let more = lines.len() as u64 - shown.iter().map(|(first, last)| last - first + 1).sum::<u64>();
            numbers.extend((more > 0).then(|| self.number(more)));
        }
        numbers
    }
}

/// Symbols for each word read, in hundredths.
pub fn hundredths(stretch: &Stretch) -> u64 {
    let read = stretch.last - stretch.first + 1 - stretch.refused;
    if read == 0 {
        return 0;
    }
    let (whole, rest) = (stretch.restored * 100 / read, stretch.restored * 100 % read);
    whole + u64::from(rest * 2 >= read)
}

fn bounds(numbers: &[u64]) -> Vec<(u64, u64)> {
    let firsts = numbers.iter().filter(|&&number| number == 0 || numbers.binary_search(&(number - 1)).is_err());
    let lasts = numbers.iter().filter(|&&number| numbers.binary_search(&(number + 1)).is_err());
    firsts.copied().zip(lasts.copied()).collect()
}

pub fn share(part: u128, whole: u128) -> String {
    if part == 0 {
        return "0%".to_string();
    }
    if part == whole {
        return "100%".to_string();
    }
    let (down, rest) = (part * 1000 / whole, part * 1000 % whole);
    let tenths = down + u128::from(rest * 2 >= whole);
    if tenths == 0 {
        "<0.1%".to_string()
    } else if tenths == 1000 {
        ">99.9%".to_string()
    } else {
        format!("{}.{}%", tenths / 10, tenths % 10)
    }
}

fn all_calls(facts: &Facts) -> u128 {
    facts.calls.values().map(|&calls| u128::from(calls)).sum()
}

/// The sum rounded up, or the number of the refusal. None: there are no prices.
pub fn bill(facts: &Facts) -> Option<Result<u128, u64>> {
    facts.prices.as_ref()?;
    let sum: u128 = facts.parts().iter().map(|part| part.3).sum();
    let rounded = sum.div_ceil(1000);
    Some(if sum > u128::from(u64::MAX) { Err(19) } else { Ok(rounded) })
}
