//! The tally program, from all its input to all its output.

use super::session::{Outcome, Session, CLEAN};
use super::shape::{Refusal, Shape};

/// The most bytes of a line, the newline counted.
pub const MAX_LINE: usize = 16_384;

/// The most bytes that are read.
pub const MAX_INPUT: usize = u32::MAX as usize;

pub fn tally(input: &[u8]) -> Vec<u8> {
    let input = &input[..input.len().min(MAX_INPUT)];
    let mut lines = input.split_inclusive(|&byte| byte == b'\n');
    let mut output = String::from("outcome page fixed\n");
    match opening(&mut lines) {
        Err((_, refusal)) => output += &outcome_line(Outcome::Refused(refusal)),
        Ok(mut session) => {
            for line in lines {
                output += &outcome_line(word_line(&mut session, line));
            }
            output += &counts(&session);
        }
    }
    output.into_bytes()
}

/// Which of the first three lines is at fault, and by what.
pub fn fault(input: &[u8]) -> Option<(usize, Refusal)> {
    opening(&mut input.split_inclusive(|&byte| byte == b'\n')).err()
}

/// Lines 1 to 3, judged in order. Of a fault the number of the line too.
fn opening<'a>(lines: &mut impl Iterator<Item = &'a [u8]>) -> Result<Session, (usize, Refusal)> {
    expect(lines.next(), b"q n b").map_err(|refusal| (1, refusal))?;
    let session = shape(lines.next()).and_then(Session::fresh).map_err(|refusal| (2, refusal))?;
    expect(lines.next(), b"word").map_err(|refusal| (3, refusal))?;
    Ok(session)
}

fn shape(line: Option<&[u8]>) -> Result<Shape, Refusal> {
    let shape = values(text(line)?).ok_or(Refusal::Syntax)?;
    let [q, n, b] = shape[..] else { return Err(Refusal::Syntax) };
    Ok(Shape::new(q, n, b))
}

fn expect(line: Option<&[u8]>, name: &[u8]) -> Result<(), Refusal> {
    if text(line)? == name {
        Ok(())
    } else {
        Err(Refusal::Syntax)
    }
}

/// The line without its newline, if there is one, it ends in a newline and it is not too long.
fn text(line: Option<&[u8]>) -> Result<&[u8], Refusal> {
    let line = line.filter(|line| line.len() <= MAX_LINE).ok_or(Refusal::Syntax)?;
    line.strip_suffix(b"\n").ok_or(Refusal::Syntax)
}

fn word_line(session: &mut Session, line: &[u8]) -> Outcome {
    let Some(mut word) = text(Some(line)).ok().and_then(values) else {
        return Outcome::Refused(Refusal::Syntax);
    };
    let mut scratch = vec![0; session.shape.scratch_len()];
    session.arrive(CLEAN, &mut word, &mut scratch)
}

fn values(text: &[u8]) -> Option<Vec<u32>> {
    text.split(|&byte| byte == b' ').map(value).collect()
}

/// A decimal number without leading zeros, at most 2^32 - 1.
fn value(digits: &[u8]) -> Option<u32> {
    let plain = digits.iter().all(u8::is_ascii_digit) && (digits == b"0" || digits.first() != Some(&b'0'));
    if !plain {
        return None;
    }
    std::str::from_utf8(digits).ok()?.parse().ok()
}

fn outcome_line(outcome: Outcome) -> String {
    let [kind, number, corrected] = outcome.values();
    let name = ["taken", "again", "refused"][kind as usize];
    format!("{name} {number} {corrected}\n")
}

fn counts(session: &Session) -> String {
    let mut lines = String::from("function calls\n");
    for (function, calls) in session.calls.iter().enumerate().filter(|(_, calls)| **calls > 0) {
        lines += &format!("{function} {calls}\n");
    }
    lines
}
