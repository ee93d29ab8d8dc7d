//! Two tallies side by side.

use crate::answers::Answers;
use crate::figures::share;
use crate::lists::Names;
use crate::ranges::{ranges, Ranges};
use crate::ranking::total;
use crate::report::{dated, Form};
use crate::tally::FUNCTIONS;
use std::cmp::Reverse;

/// One of the two.
pub struct Side {
    /// Name and date of its file.
    pub source: String,
    pub date: Option<String>,
    pub answers: Answers,
    pub calls: [u32; FUNCTIONS],
}

impl Side {
    pub fn origin(&self) -> String {
        dated(&self.source, self.date.as_deref())
    }
}

/// Calls of a function, before and after.
#[derive(Clone, Copy)]
pub struct Change {
    pub function: usize,
    pub calls: [u32; 2],
}

impl Change {
    pub fn change(&self) -> i64 {
        i64::from(self.calls[1]) - i64::from(self.calls[0])
    }
}

pub struct Comparison {
    pub sides: [Side; 2],
    pub names: Names,
    /// Functions whose calls differ: the greatest change first; of equal ones the lower number.
    pub changes: Vec<Change>,
}

/// A figure of both runs.
pub struct Figure {
    pub what: &'static str,
    pub values: [u64; 2],
}

impl Comparison {
    pub fn new(sides: [Side; 2], names: Names) -> Comparison {
        let both = |function: usize| Change { function, calls: [0, 1].map(|side: usize| sides[side].calls[function]) };
        let mut changes: Vec<Change> = (1..FUNCTIONS).map(both).filter(|one| one.change() != 0).collect();
        changes.sort_by_key(|one| (Reverse(one.change().abs()), one.function));
        Comparison { sides, names, changes }
    }

    pub fn name(&self, function: usize) -> Option<&str> {
        self.names[function].as_deref()
    }

    pub fn named(&self) -> bool {
        self.names.iter().any(Option::is_some)
    }

    /// What is to be known of each run as a whole.
    pub fn figures(&self) -> Vec<Figure> {
        let figure = |what: &'static str, of: fn(&Side) -> u64| Figure {
            what,
            values: [of(&self.sides[0]), of(&self.sides[1])],
        };
        vec![
            figure("words", |side| side.answers.words()),
            figure("pages taken", |side| side.answers.taken),
            figure("words refused", |side| side.answers.refusals()),
            figure("functions called", |side| side.calls.iter().filter(|&&calls| calls > 0).count() as u64),
            figure("calls", |side| total(&side.calls)),
        ]
    }

    /// Its share of all calls, before and after.
    pub fn shares(&self, one: &Change) -> [String; 2] {
        [0, 1].map(|side: usize| share(one.calls[side].into(), total(&self.sides[side].calls).into()))
    }

    /// The functions that were called only afterwards, only before, and as often as before.
    pub fn lists(&self) -> [(&'static str, Ranges); 3] {
        let calls = |side: usize, function: u64| self.sides[side].calls[function as usize];
        let those = |wanted: &dyn Fn(u32, u32) -> bool| {
            ranges((1..FUNCTIONS as u64).filter(|&function| wanted(calls(0, function), calls(1, function))))
        };
        [
            ("New", those(&|before, after| before == 0 && after > 0)),
            ("Gone", those(&|before, after| before > 0 && after == 0)),
            ("Called as often as before", those(&|before, after| before > 0 && before == after)),
        ]
    }

    /// What helps to read it.
    pub fn said(&self, form: Form) -> String {
        let [before, after] = [0, 1].map(|side: usize| self.sides[side].answers.taken);
        let changed = match self.changes.len() {
            0 => "No function is called more or less often than before.".to_string(),
            1 => "1 function is called more or less often than before.".to_string(),
            many => format!("{many} functions are called more or less often than before."),
        };
        if before == after {
            return changed;
        }
        let pages = [before, after].map(|pages| form.number(pages));
        format!("{changed} The runs have {} and {} pages, so compare shares rather than calls.", pages[0], pages[1])
    }
}
