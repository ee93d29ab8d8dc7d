//! All that a report is made from, and how its numbers are written.

use crate::bill::Bill;
use crate::clean::fitted;
use crate::figures::grouped;
use crate::lists::Names;
use crate::ranges::spelled;
use crate::ranking::{ranking, total, Ranked};
use crate::tally::Tally;

pub struct Report {
    /// The title that was asked for.
    pub title: Option<String>,
    /// Name and date of what the tally came from.
    pub source: String,
    pub date: Option<String>,
    pub tally: Tally,
    pub names: Names,
    /// If prices were given, and the tally is one.
    pub bill: Option<Bill>,
}

impl Report {
    pub fn ranked(&self) -> Vec<Ranked> {
        ranking(&self.tally.counts())
    }

    /// The calls of all functions.
    pub fn calls(&self) -> u64 {
        total(&self.tally.counts())
    }

    pub fn name(&self, function: usize) -> Option<&str> {
        self.names[function].as_deref()
    }

    pub fn named(&self) -> bool {
        self.names.iter().any(Option::is_some)
    }

    /// Name and date.
    pub fn origin(&self) -> String {
        dated(&self.source, self.date.as_deref())
    }
}

/// A file's name, and its date if it has one.
pub fn dated(name: &str, date: Option<&str>) -> String {
    date.map_or(name.to_string(), |date| format!("{name}, {date}"))
}

/// How numbers are written.
#[derive(Clone, Copy)]
pub struct Form {
    separator: &'static str,
    dash: &'static str,
    minus: &'static str,
    digits: fn(u64) -> String,
    /// Columns that a name in a sentence has at most.
    room: usize,
}

/// Thin spaces that no line is broken at.
pub const PAGE: Form = Form {
    separator: THIN,
    dash: "\u{2013}",
    minus: "\u{2212}",
    digits: |number| grouped(number.into(), THIN),
    room: 80,
};
pub const TERMINAL: Form =
    Form { separator: ",", dash: "-", minus: "-", digits: |number| grouped(number.into(), ","), room: 40 };

const THIN: &str = "\u{202f}";

impl Form {
    pub fn number(&self, number: impl Into<u128>) -> String {
        grouped(number.into(), self.separator)
    }

    /// With its sign, if it is not 0.
    pub fn signed(&self, number: i64) -> String {
        let sign = ["", "+", self.minus][(number.signum().rem_euclid(3)) as usize];
        format!("{sign}{}", self.number(number.unsigned_abs()))
    }

    pub fn name(&self, name: &str) -> String {
        fitted(name, self.room)
    }

    pub fn ranges(&self, ranges: &[(u64, u64)]) -> String {
        spelled(ranges, self.dash, self.digits)
    }

    /// Picojoules in the largest unit that leaves at least one of it, to three places, and the unit.
    pub fn energy(&self, picojoules: u64) -> (String, &'static str) {
        let units = [("mJ", 1_000_000_000), ("µJ", 1_000_000), ("nJ", 1_000)];
        let Some((unit, size)) = units.into_iter().find(|&(_, size)| u128::from(picojoules) >= size) else {
            return (self.number(picojoules), "pJ");
        };
        let thousandths = (u128::from(picojoules) * 1000 + size / 2) / size;
        (format!("{}.{:03}", self.number(thousandths / 1000), thousandths % 1000), unit)
    }
}

/// A number of things, with the word for one and for several.
pub fn several(form: Form, number: u64, one: &str, more: &str) -> String {
    format!("{} {}", form.number(number), if number == 1 { one } else { more })
}
