//! The test program: `cargo run --release`, with the seed as its argument or in SEED if wanted.
//!
//! TALLY names the tally program's executable. Without it the program's tests fail, or are skipped
//! where ALLOW_SKIP=1. With ONLY=library the library's tests alone are run. Built without the feature
//! `library`, these are left out, and the program's are run only where TALLY is set.

use shaftglimmer_tests::call::{Call, Make};
use shaftglimmer_tests::groups::{
    batches, coverage, double, energy, erasures, figures, idle, looked, nearest, person, proposals, reference, restore,
    slopes, stream, text, vectors, vote, ways,
};
use shaftglimmer_tests::process::Program;
use shaftglimmer_tests::report::{Group, Report};
use std::env;
use std::process::ExitCode;
use std::time::{SystemTime, UNIX_EPOCH};

fn main() -> ExitCode {
    let seed = seed();
    println!("seed {seed}");
    let mut report = Report::new(seed);
    let only_library = env::var_os("ONLY").is_some_and(|value| value == "library");
    if !only_library {
        of_both(&mut report, "reference", Call::on_reference);
        report.run(reference::group());
    }
    library(&mut report);
    if !only_library {
        program(&mut report);
    }
    if report.finish() {
        ExitCode::SUCCESS
    } else {
        ExitCode::FAILURE
    }
}

/// A group by its name and by whichever makes its calls.
type Grouped = fn(String, Make) -> Group;

/// The groups whose calls the reference makes as well as the library.
const OF_BOTH: [(&str, Grouped); 15] = [
    ("bench values", vectors::group),
    ("slopes", slopes::group),
    ("figures", figures::group),
    ("idle marks", idle::group),
    ("bills", energy::group),
    ("coverage", coverage::group),
    ("dead cells", erasures::group),
    ("checks looked at,", looked::group),
    ("votes", vote::group),
    ("ways", ways::group),
    ("two wrong symbols", double::group),
    ("nearest codewords", nearest::group),
    ("dead cells and damage", restore::group),
    ("bundles", batches::group),
    ("proposals", proposals::group),
];

fn of_both(report: &mut Report, maker: &str, make: Make) {
    for (name, group) in OF_BOTH {
        report.run(group(format!("{name} of the {maker}"), make));
    }
}

/// The seed that was given, else the time.
fn seed() -> u64 {
    let given = env::args().nth(1).or_else(|| env::var("SEED").ok());
    let time = || SystemTime::now().duration_since(UNIX_EPOCH).map_or(0, |since| since.as_nanos() as u64);
    given.map_or_else(time, |text| text.parse().expect("the seed is a decimal number"))
}

#[cfg(feature = "library")]
fn library(report: &mut Report) {
    use shaftglimmer_tests::groups::{codec, pages, refusals, sessions, views, words};
    of_both(report, "library", Call::on_library);
    report.run(codec::group());
    report.run(words::group());
    report.run(refusals::group());
    report.run(pages::group());
    report.run(views::group());
    sessions::groups().into_iter().for_each(|group| report.run(group));
}

#[cfg(not(feature = "library"))]
fn library(report: &mut Report) {
    report.skip("library", "built without it");
}

fn program(report: &mut Report) {
    let allowed = env::var_os("ALLOW_SKIP").is_some_and(|value| value == "1");
    let may_skip = allowed || cfg!(not(feature = "library"));
    match Program::from_env() {
        Some(program) => {
            report.run(text::group(&program));
            report.run(stream::group(&program));
            report.run(person::group(&program));
        }
        None if may_skip => report.skip("program", "TALLY is not set"),
        None => report.fail("program", "TALLY is not set"),
    }
}
