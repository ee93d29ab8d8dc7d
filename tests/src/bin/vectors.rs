//! Writes calls and what the second implementation makes of them, for tests in other languages.
//!
//! `vectors SEED`: each entry but those over bytes, of many shapes, with nothing wrong and with one thing wrong. A call is
//! a line of parts with tabs between them: the entry, the shape's ten values, the number, the lists that are lent but for
//! the scratch, `=`, the answer, the same lists as they are left. In a list a run of equal values is one of them, `*`,
//! and how many. It needs no library:
//!
//! `cargo run --release --no-default-features --bin vectors -- 7 > vectors.txt`

use shaftglimmer_tests::call::{Call, Entry};
use shaftglimmer_tests::groups::calls::{bad_slope, good, reshaped, resized, ENTRIES};
use shaftglimmer_tests::random::Random;
use shaftglimmer_tests::reference::session::PAGES_AT;
use shaftglimmer_tests::reference::shape::{orders_and_directions, Shape};
use std::env;
use std::io::{self, BufWriter, Write};
use std::process::ExitCode;

fn main() -> ExitCode {
    let Some(seed) = env::args().nth(1).and_then(|text| text.parse().ok()) else {
        eprintln!("usage: vectors SEED");
        return ExitCode::from(2);
    };
    match write_all(seed) {
        Ok(()) => ExitCode::SUCCESS,
        Err(_) => ExitCode::FAILURE,
    }
}

fn write_all(seed: u64) -> io::Result<()> {
    let mut out = BufWriter::new(io::stdout().lock());
    let mut random = Random::new(seed, "vectors");
    for (q, n) in orders_and_directions().into_iter().filter(|&(q, n)| q <= 11 || n == 4) {
        let b = random.pick(&[1, 8, 11, 31, 32]);
        let shape = random.shape(q, n, b);
        for entry in ENTRIES.into_iter().filter(|entry| !entry.is_of_host()) {
            let call = good(entry, shape, &mut random);
            for call in [vec![call.clone()], faulty(&call, &mut random), numbered(&call)].concat() {
                writeln!(out, "{}", text(&call))?;
            }
        }
    }
    out.flush()
}

/// The call with one thing wrong: the shape, a slope, a figure of the session, the length or a value of a list.
fn faulty(call: &Call, random: &mut Random) -> Vec<Call> {
    let mut calls = vec![reshaped(call, Shape { b: 33, ..call.shape })];
    calls.push(reshaped(call, bad_slope(call.shape, call.shape, random)));
    if call.entry.takes_session() {
        let mut session = call.slices[0].clone();
        session[PAGES_AT] ^= 1;
        calls.push(call.with_slice(0, session));
    }
    for i in (0..call.slices.len()).filter(|&i| is_handed_in(call.entry, i) && !call.entry.is_fixed(i)) {
        let slice = &call.slices[i];
        for length in [0, slice.len().saturating_sub(1), slice.len() + 1] {
            calls.push(call.with_slice(i, resized(slice, length, random)));
        }
        let mut wide = slice.clone();
        wide.iter_mut().last().into_iter().for_each(|value| *value = u32::MAX);
        calls.push(call.with_slice(i, wide));
    }
    calls
}

/// The call with other numbers, where it has one: pages, functions, ways.
fn numbered(call: &Call) -> Vec<Call> {
    let numbers: &[u32] = match call.entry {
        Entry::WritePage => &[0, 1023, 1024, u32::MAX],
        Entry::Count => &[0, 255, 256, u32::MAX],
        Entry::Arrive | Entry::Batch => &[1, 2, 3, u32::MAX],
        _ => &[],
    };
    numbers.iter().map(|&number| Call { number, ..call.clone() }).collect()
}

/// Whether list i is the caller's, and not only written.
fn is_handed_in(entry: Entry, i: usize) -> bool {
    match (entry, entry.slice_names()[i]) {
        (_, "scratch" | "looked" | "bytes" | "outcome" | "outcomes") => false,
        (Entry::Encode, name) => name != "word",
        (Entry::Extract | Entry::WritePage, name) => name != "data",
        (Entry::Marks, name) => name != "marks",
        (Entry::Fresh, _) => false,
        _ => true,
    }
}

fn text(call: &Call) -> String {
    let after = call.on_reference();
    let mut parts = vec![format!("{:?}", call.entry), runs(&call.shape.values()), call.number.to_string()];
    parts.extend(lists(call.entry, &call.slices));
    parts.extend(["=".to_string(), after.answer.to_string()]);
    parts.extend(lists(call.entry, &after.slices));
    parts.join("\t")
}

/// All but the scratch.
fn lists(entry: Entry, slices: &[Vec<u32>]) -> Vec<String> {
    let named = entry.slice_names().iter().zip(slices);
    named.filter(|(&name, _)| name != "scratch").map(|(_, slice)| runs(slice)).collect()
}

fn runs(values: &[u32]) -> String {
    let run = |run: &[u32]| match run.len() {
        1 => run[0].to_string(),
        length => format!("{}*{length}", run[0]),
    };
    values.chunk_by(|x, y| x == y).map(run).collect::<Vec<String>>().join(" ")
}
