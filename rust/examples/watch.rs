//! The progress of a capture while its words arrive, 64 at a time.
//!
//! `cargo run --example watch -- [FILE]`

use shaftglimmer::{parse_line, Outcome, Outcomes, Refusal, Session, Shape, Way};
use std::fs::File;
use std::io::{self, BufRead, BufReader, Read};
use std::process::ExitCode;

fn main() -> ExitCode {
    let name = std::env::args().nth(1);
    let watched = open(name.as_deref()).and_then(watch);
    if let Err(error) = watched {
        eprintln!("watch: {}: {error}", name.as_deref().unwrap_or("-"));
        return ExitCode::FAILURE;
    }
    ExitCode::SUCCESS
}

/// The file with this name; without one, or with `-`, standard input.
fn open(name: Option<&str>) -> io::Result<impl BufRead> {
    let input: Box<dyn Read> = match name {
        None | Some("-") => Box::new(io::stdin()),
        Some(name) => Box::new(File::open(name)?),
    };
    Ok(BufReader::new(input))
}

fn watch(mut input: impl BufRead) -> io::Result<()> {
    let mut session = match begin(&mut input)? {
        Ok(session) => session,
        Err(refusal) => {
            println!("{refusal} {}", refusal.advice());
            return Ok(());
        }
    };
    let (mut words, mut refused, mut last) = (0, 0, 0);
    loop {
        let (lines, mut bundle) = bundle(&session, &mut input)?;
        if lines == 0 {
            break;
        }
        words += lines;
        refused += lines - bundle.len() / session.shape().word_length();
        match session.arrive_all(Way::Clean, &mut bundle) {
            Ok(outcomes) => {
                refused += outcomes.iter().filter(|outcome| matches!(outcome, Outcome::Refused(_))).count();
                last = outcomes.iter().filter_map(page).fold(last, u32::max);
            }
            Err(refusal) => println!("nothing arrived: {refusal}"),
        }
        let (pages, lowest) = (session.pages(), session.lowest());
        println!("{words} words, {refused} refused: {pages} pages taken, page {lowest} is the first to wait for");
    }
    let missing = session.missing().take_while(|&page| page < last).count();
    println!("{missing} pages below page {last} never came, {} functions were called", session.tally().count());
    Ok(())
}

/// A fresh session of the shape in line 2, or what is wrong with the first of the three lines that something is wrong
/// with.
fn begin(input: &mut impl BufRead) -> io::Result<Result<Session, Refusal>> {
    if line(input)?.as_deref() != Some(b"q n b\n") {
        return Ok(Err(Refusal::Syntax));
    }
    let session = match line(input)?.as_deref().map(values) {
        Some(Ok(values)) => match values[..] {
            [q, n, b] => Shape::new(q, n, b).and_then(|shape| Session::fresh(&shape)),
            _ => Err(Refusal::Syntax),
        },
        _ => Err(Refusal::Syntax),
    };
    if session.is_ok() && line(input)?.as_deref() != Some(b"word\n") {
        return Ok(Err(Refusal::Syntax));
    }
    Ok(session)
}

/// Up to 64 lines: how many they are, and the words in them, one behind the other. A line that is no word brings none.
fn bundle(session: &Session, input: &mut impl BufRead) -> io::Result<(usize, Vec<u32>)> {
    let (mut lines, mut words) = (0, vec![]);
    while lines < Outcomes::MOST {
        let Some(line) = line(input)? else { break };
        lines += 1;
        let word = values(&line).ok().filter(|word| word.len() == session.shape().word_length());
        words.extend(word.into_iter().flatten());
    }
    Ok((lines, words))
}

/// The next line, or nothing at the end.
fn line(input: &mut impl BufRead) -> io::Result<Option<Vec<u8>>> {
    let mut line = vec![];
    input.read_until(b'\n', &mut line)?;
    Ok(Some(line).filter(|line| !line.is_empty()))
}

/// The values of a line, which ends with its newline.
fn values(line: &[u8]) -> Result<Vec<u32>, Refusal> {
    parse_line(line.strip_suffix(b"\n").ok_or(Refusal::Syntax)?)
}

/// The page that a word has brought.
fn page(outcome: Outcome) -> Option<u32> {
    match outcome {
        Outcome::Taken { page, .. } | Outcome::Again { page, .. } => Some(page),
        Outcome::Refused(_) => None,
    }
}
