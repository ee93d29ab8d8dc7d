//! Runs groups of tests on all processors and says how they went.

use crate::random::Random;
use std::panic::{catch_unwind, AssertUnwindSafe};
use std::sync::atomic::{AtomicUsize, Ordering};
use std::sync::Mutex;
use std::thread;
use std::time::Instant;

/// How many cases a test tried, or what went wrong.
pub type Verdict = Result<u64, String>;

/// How many failures of a group are shown.
const SHOWN: usize = 5;

type Body = Box<dyn Fn(&mut Random) -> Verdict + Send + Sync>;

/// What a group's cases are. Words are summed over the whole run.
#[derive(Clone, Copy, PartialEq, Eq)]
pub enum Unit {
    Words,
    Calls,
    Captures,
}

pub struct Group {
    name: String,
    unit: Unit,
    tests: Vec<(String, Body)>,
}

impl Group {
    pub fn new(name: impl Into<String>, unit: Unit) -> Group {
        Group { name: name.into(), unit, tests: vec![] }
    }

    pub fn test(&mut self, name: impl Into<String>, body: impl Fn(&mut Random) -> Verdict + Send + Sync + 'static) {
        self.tests.push((name.into(), Box::new(body)));
    }
}

#[derive(Default)]
pub struct Report {
    seed: u64,
    passed: usize,
    failed: usize,
    words: u64,
}

impl Report {
    pub fn new(seed: u64) -> Report {
        Report { seed, ..Report::default() }
    }

    pub fn run(&mut self, group: Group) {
        let start = Instant::now();
        let mut cases = 0;
        let mut failures = vec![];
        for ((name, _), verdict) in group.tests.iter().zip(self.verdicts(&group)) {
            match verdict {
                Ok(tried) => cases += tried,
                Err(reason) => failures.push(format!("FAILED: {}: {name}: {reason}", group.name)),
            }
        }
        let failed = failures.len();
        show_smallest(failures);
        let unit = match group.unit {
            Unit::Words => "words",
            Unit::Calls => "calls",
            Unit::Captures => "captures",
        };
        let (tests, seconds) = (group.tests.len(), start.elapsed().as_secs_f64());
        println!("{}: {tests} tests, {failed} failed, {cases} {unit} ({seconds:.1} s)", group.name);
        self.failed += failed;
        self.passed += tests - failed;
        self.words += if group.unit == Unit::Words { cases } else { 0 };
    }

    pub fn skip(&self, name: &str, reason: &str) {
        println!("{name}: skipped, {reason}");
    }

    pub fn fail(&mut self, name: &str, reason: &str) {
        println!("FAILED: {name}: {reason}");
        self.failed += 1;
    }

    /// The last lines of the run; true if nothing failed.
    pub fn finish(self) -> bool {
        println!("{} words decoded, seed {}", self.words, self.seed);
        println!("{} passed, {} failed", self.passed, self.failed);
        self.failed == 0
    }

    /// Each test's verdict, in order; idle processors take the next test.
    fn verdicts(&self, group: &Group) -> Vec<Verdict> {
        let next = AtomicUsize::new(0);
        let verdicts = Mutex::new(vec![Ok(0); group.tests.len()]);
        let work = || loop {
            let i = next.fetch_add(1, Ordering::Relaxed);
            let Some((name, body)) = group.tests.get(i) else { break };
            let mut random = Random::new(self.seed, &format!("{}: {name}", group.name));
            let verdict = guarded(|| body(&mut random));
            verdicts.lock().expect("no thread panics with the lock")[i] = verdict;
        };
        thread::scope(|scope| {
            for _ in 0..thread::available_parallelism().map_or(1, usize::from) {
                scope.spawn(work);
            }
        });
        verdicts.into_inner().expect("no thread panics with the lock")
    }
}

/// One mistake mostly fails many tests; the shortest reports have the smallest cases.
fn show_smallest(mut failures: Vec<String>) {
    failures.sort_by_key(String::len);
    failures.iter().take(SHOWN).for_each(|failure| println!("{failure}"));
    if failures.len() > SHOWN {
        println!("FAILED: and {} more", failures.len() - SHOWN);
    }
}

/// A test that panics is a failed one.
fn guarded(body: impl FnOnce() -> Verdict) -> Verdict {
    catch_unwind(AssertUnwindSafe(body)).unwrap_or_else(|panic| {
        let text = panic.downcast_ref::<String>().cloned();
        let text = text.or_else(|| panic.downcast_ref::<&str>().map(|text| text.to_string()));
        Err(format!("panicked: {}", text.unwrap_or_default()))
    })
}
