//! The program, in megabytes of text a second of processor time, against an equal Rust program.

use super::contest::median;
use super::processor::seconds_of_children;
use crate::capture::{heading, line, recording, word_lines};
use crate::process::{Program, TemporaryFile};
use crate::random::Random;
use crate::reference::shape::Shape;
use std::env;

const TEXT: usize = 32_000_000;

const RUNS: usize = 7;

/// Of the Rust program's time, every row.
const TARGET: f64 = 1.0;

/// Prints the table; gives the rows that miss their target.
pub fn table() -> Vec<String> {
    let Some(ours) = Program::from_env() else {
        println!("The program is left out: TALLY is not set.");
        return vec![];
    };
    let here = env::current_exe().expect("this program has a path");
    let rust = Program::new(here.with_file_name("tally_rust"));
    println!("A speed is that of the median processor time of {RUNS} runs in turns; a row's ratio is that of its two speeds.");
    println!();
    println!("| shape | text | our MB/s | Rust MB/s | time, ours / Rust |");
    println!("|---|---|---:|---:|---:|");
    let mut missed = vec![];
    for shape in [Shape::new(17, 4, 32), Shape::new(3, 2, 8), Shape::new(31, 8, 32)] {
        let mut random = Random::new(1, "program");
        missed.extend(row(&ours, &rust, shape, "pages, half of them damaged", &pages(shape, &mut random)));
        missed.extend(row(&ours, &rust, shape, "random symbols", &noise(shape, &mut random)));
    }
    missed
}

/// The recording's lines over and over.
fn pages(shape: Shape, random: &mut Random) -> String {
    let pages = recording(shape, 1024, random);
    let lines = word_lines(shape, &pages, random).concat();
    heading(shape) + &lines.repeat(TEXT.div_ceil(lines.len()))
}

/// Words with numbers as long as the width allows; reading refuses nearly all of them.
fn noise(shape: Shape, random: &mut Random) -> String {
    let mut word = || (0..shape.word_len()).map(|_| random.symbol(shape)).collect::<Vec<u32>>();
    let lines: String = (0..1_000).map(|_| line(&word())).collect();
    heading(shape) + &lines.repeat(TEXT.div_ceil(lines.len()))
}

/// Prints a row; gives it if it misses its target.
fn row(ours: &Program, rust: &Program, shape: Shape, name: &str, text: &str) -> Option<String> {
    let file = TemporaryFile::new(text.as_bytes()).expect("a file for the text");
    let output = |program: &Program| program.run(text.as_bytes()).expect("the program runs");
    assert!(output(ours) == output(rust), "the programs disagree");
    let runs: Vec<[f64; 2]> = (0..RUNS).map(|_| [ours, rust].map(|program| seconds(program, &file))).collect();
    let megabytes = text.len() as f64 / 1e6;
    let speed = |of: usize| megabytes / median(runs.iter().map(|run| run[of]).collect());
    let (ours, rust) = (speed(0), speed(1));
    // from the two speeds of this row, so that the three figures agree
    let ratio = rust / ours;
    let Shape { q, n, b, .. } = shape;
    let row = format!("| ({q}, {n}, {b}) | {name} | {ours:.1} | {rust:.1} | {ratio:.2} |");
    println!("{row}");
    (ratio > TARGET).then_some(row)
}

/// The processor time of one run.
fn seconds(program: &Program, file: &TemporaryFile) -> f64 {
    let input = file.open().expect("the text's file");
    let before = seconds_of_children();
    program.run_silently(input).expect("the program runs");
    seconds_of_children() - before
}
