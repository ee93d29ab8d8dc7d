//! Writes a sample capture to standard output.
//!
//! `sample SEED Q N B PAGES`: a recording of the pages 0 to PAGES - 1 (fewer where the width B has fewer
//! page numbers), each page up to three times in any order, half of the words with clean damage, and a
//! few lines that are refused. The same arguments give the same capture. It needs no library:
//!
//! `cargo run --release --no-default-features --bin sample -- 7 17 4 32 150 > capture.txt`

use shaftglimmer_tests::capture::{recording, text};
use shaftglimmer_tests::random::Random;
use shaftglimmer_tests::reference::shape::Shape;
use std::env;
use std::io::{self, Write};
use std::process::ExitCode;

fn main() -> ExitCode {
    let Some((seed, shape, pages)) = arguments() else {
        eprintln!("usage: sample SEED Q N B PAGES, with a lawful shape");
        return ExitCode::from(2);
    };
    let mut random = Random::new(seed, "sample");
    let mut pages = recording(shape, pages, &mut random);
    pages.iter_mut().zip(0..).for_each(|(page, number)| page.number = number);
    match io::stdout().write_all(text(shape, &pages, &mut random).as_bytes()) {
        Ok(()) => ExitCode::SUCCESS,
        Err(_) => ExitCode::FAILURE,
    }
}

fn arguments() -> Option<(u64, Shape, usize)> {
    let numbers: Option<Vec<u64>> = env::args().skip(1).map(|text| text.parse().ok()).collect();
    let [seed, q, n, b, pages] = numbers?[..] else { return None };
    let shape = Shape::new(q.try_into().ok()?, n.try_into().ok()?, b.try_into().ok()?);
    shape.lawful().then_some((seed, shape, pages.try_into().ok()?))
}
