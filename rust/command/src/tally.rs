//! Reads what `tally` prints (docs/RULES.md, 7.2), or makes it from a capture.

use crate::answers::{Answers, MOST_RESTORED, PAGES};
use crate::capture::{self, Begun, Capture, Fault, Reading};
use crate::complaint::Complaint;
use crate::lines::{values, Ending, Lines};
use shaftglimmer::{Outcome, Refusal, Way};

pub const FUNCTIONS: usize = 256;
pub const FIRST_NAMES: &str = "outcome page fixed";
pub const SECOND_NAMES: &str = "function calls";

pub struct Tally {
    pub answers: Answers,
    pub calls: Result<[u32; FUNCTIONS], Lack>,
}

/// Why there are no calls, so that it is no tally.
pub enum Lack {
    /// One of the first three lines of the capture is at fault: there are no words either.
    Fault(Fault),
    /// The line `function calls` is missing. The last line may be cut besides, and is then left out.
    Counts { cut: bool },
    /// The last line is cut, and behind it counts are missing.
    LastLine,
}

impl Tally {
    /// The calls, or none of any function.
    pub fn counts(&self) -> [u32; FUNCTIONS] {
        *self.calls.as_ref().unwrap_or(&[0; FUNCTIONS])
    }

    pub fn fault(&self) -> Option<&Fault> {
        match &self.calls {
            Err(Lack::Fault(fault)) => Some(fault),
            _ => None,
        }
    }
}

/// A tally, or a capture, by its first line.
pub fn read(mut lines: Lines) -> Result<Tally, Complaint> {
    let first = lines.advance()?;
    let line = lines.line();
    match first {
        Ending::Newline if line == FIRST_NAMES.as_bytes() => printed(lines),
        Ending::Newline if line == capture::FIRST_NAMES => counted(lines, first),
        Ending::Cut if FIRST_NAMES.as_bytes().starts_with(line) => Ok(lacking(Lack::Counts { cut: true })),
        Ending::Nothing => Ok(lacking(Lack::Counts { cut: false })),
        _ => Err(lines.fault("neither 'outcome page fixed', as a tally begins, nor 'q n b', as a capture begins")),
    }
}

fn lacking(lack: Lack) -> Tally {
    Tally { answers: Answers::new(), calls: Err(lack) }
}

/// The tally of a capture.
fn counted(lines: Lines, first: Ending) -> Result<Tally, Complaint> {
    let mut capture = match Capture::begin(lines, first, Reading::By(Way::Clean))? {
        Begun::Words(capture) => capture,
        Begun::Fault(fault) => return Ok(lacking(Lack::Fault(fault))),
    };
    let mut answers = Answers::new();
    while let Some(outcome) = capture.next()? {
        answers.add(outcome).map_err(|reason| capture.lines.fault(reason))?;
    }
    capture.lines.tell_limit();
    Ok(Tally { answers, calls: Ok(*capture.session.calls()) })
}

/// What was printed.
fn printed(mut lines: Lines) -> Result<Tally, Complaint> {
    let mut answers = Answers::new();
    loop {
        match lines.advance()? {
            Ending::Newline if lines.line() == SECOND_NAMES.as_bytes() => break,
            Ending::Newline => {
                let answer = answer(lines.line()).map_err(|reason| lines.fault(reason))?;
                answers.add(answer).map_err(|reason| lines.fault(reason))?;
            }
            Ending::Cut if begins(lines.line()) => return Ok(uncounted(answers, true)),
            Ending::Cut => return Err(lines.fault("not an answer")),
            Ending::TooLong => return Err(lines.fault("the line is too long")),
            Ending::Nothing => return Ok(uncounted(answers, false)),
        }
    }
    Ok(Tally { answers, calls: counts(&mut lines)?.ok_or(Lack::LastLine) })
}

/// Answers without counts. If there is one answer, and it can be that to the first three lines, it is about no word.
fn uncounted(answers: Answers, cut: bool) -> Tally {
    let faults = [Refusal::Shape, Refusal::Syntax];
    let only = answers.refused().map(|(refusal, _)| refusal).find(|refusal| faults.contains(refusal));
    match only.filter(|_| answers.words() == 1 && !cut) {
        Some(refusal) => lacking(Lack::Fault(Fault { line: None, refusal, ends: vec![] })),
        None => Tally { answers, calls: Err(Lack::Counts { cut }) },
    }
}

/// A line of the first table.
fn answer(line: &[u8]) -> Result<Outcome, String> {
    const FORM: &str = "not an answer: 'taken', 'again' or 'refused' and two numbers, with one space before each";
    let space = line.iter().position(|&byte| byte == b' ').ok_or(FORM)?;
    let (kind, numbers) = (&line[..space], values(&line[space + 1..]));
    let Some(&[number, changed]) = numbers.as_deref() else { return Err(FORM.to_string()) };
    match kind {
        b"refused" if changed != 0 => Err("in a refused word no symbol is restored".to_string()),
        b"refused" => {
            Refusal::from_number(number).map(Outcome::Refused).ok_or_else(|| format!("there is no refusal {number}"))
        }
        b"taken" | b"again" if number as usize >= PAGES => {
            Err(format!("there is no page {number}: they end with 1023"))
        }
        b"taken" | b"again" if changed as usize > MOST_RESTORED => {
            Err(format!("no word has {changed} symbols restored: 7 at most"))
        }
        b"taken" => Ok(Outcome::Taken { page: number, changed }),
        b"again" => Ok(Outcome::Again { page: number, changed }),
        _ => Err(FORM.to_string()),
    }
}

/// Whether a line that was cut may be the beginning of an answer, or of the second line of names.
fn begins(line: &[u8]) -> bool {
    let fields: Vec<&[u8]> = line.split(|&byte| byte == b' ').collect();
    let digits = |field: &&[u8]| field.iter().all(u8::is_ascii_digit);
    let answers: [&[u8]; 3] = [b"taken", b"again", b"refused"];
    let answer = match fields[..] {
        [word] => answers.iter().any(|answer| answer.starts_with(word)),
        [word, ref numbers @ ..] => answers.contains(&word) && numbers.len() <= 2 && numbers.iter().all(digits),
        [] => false,
    };
    answer || SECOND_NAMES.as_bytes().starts_with(line)
}

/// The second table. None: its last line is cut.
fn counts(lines: &mut Lines) -> Result<Option<[u32; FUNCTIONS]>, Complaint> {
    let mut calls = [0; FUNCTIONS];
    let mut last = 0;
    loop {
        match lines.advance()? {
            Ending::Newline => {
                let (function, count) = count(lines.line(), last).map_err(|reason| lines.fault(reason))?;
                calls[function] = count;
                last = function;
            }
            Ending::Cut => return Ok(None),
            Ending::TooLong => return Err(lines.fault("the line is too long")),
            Ending::Nothing => return Ok(Some(calls)),
        }
    }
}

/// A line of the second table, in which the functions rise.
fn count(line: &[u8], last: usize) -> Result<(usize, u32), String> {
    let numbers = values(line);
    let Some(&[function, count]) = numbers.as_deref() else {
        return Err("not a function and its calls: two numbers with one space between".to_string());
    };
    let function = function as usize;
    if function == 0 || function >= FUNCTIONS {
        return Err(format!("no calls are counted of function {function}: they go from 1 to 255"));
    }
    if function <= last {
        return Err(format!("function {function} after function {last}: the numbers rise"));
    }
    if count == 0 {
        return Err(format!("function {function} has no calls, so it has no line"));
    }
    Ok((function, count))
}
