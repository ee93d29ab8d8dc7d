//! Malformed text of every kind through the linked program.

use super::faults::{bad_lines, first_lines, long_lines, second_lines, third_lines, zeros, EXAMPLE, GOOD, SHAPE};
use super::idle;
use crate::capture::{heading, line, own_tally, recording, recording_of, text, word_lines, Page};
use crate::process::Program;
use crate::random::Random;
use crate::reference::program::tally;
use crate::reference::shape::Shape;
use crate::report::{Group, Unit, Verdict};
use crate::shrink::{expect, parts, without_parts, Case};

pub fn group(program: &Program) -> Group {
    let mut group = Group::new("program, text", Unit::Captures);
    let mut test = |name: &str, body: fn(&Program, &mut Random) -> Verdict| group.test_program(name, program, body);
    test("the rules' capture", |program, _| example(program));
    test("captures with idle marks", |program, _| idle_captures(program));
    test("recordings with idle marks", idle_recordings);
    test("line 1", |program, _| headings(program, &first_lines()));
    test("line 2", |program, _| headings(program, &second_lines()));
    test("line 3", |program, _| headings(program, &third_lines()));
    test("word lines", |program, _| lines(program, &bad_lines()));
    test("long lines", |program, _| lines(program, &long_lines()));
    test("no newline at the end", |program, _| unfinished(program));
    test("random edits of word lines", edited_lines);
    test("random edits anywhere", edited_captures);
    group
}

impl Group {
    pub fn test_program(
        &mut self,
        name: impl Into<String>,
        program: &Program,
        body: impl Fn(&Program, &mut Random) -> Verdict + Send + Sync + 'static,
    ) {
        let program = program.clone();
        self.test(name, move |random| body(&program, random));
    }
}

/// An input on which program and reference must agree.
#[derive(Clone)]
pub struct Capture<'a> {
    pub program: &'a Program,
    pub input: Vec<u8>,
}

impl Case for Capture<'_> {
    fn difference(&self) -> Option<String> {
        compare(&tally(&self.input), self.program.run(&self.input))
    }

    fn smaller(&self) -> impl Iterator<Item = Self> {
        let lines: Vec<&[u8]> = self.input.split_inclusive(|&byte| byte == b'\n').collect();
        let fewer_lines =
            parts(lines.len()).map(move |part| [&lines[..part.start], &lines[part.end..]].concat().concat());
        let bytes = if self.input.len() < 400 { &self.input[..] } else { &[] };
        let inputs = fewer_lines.chain(without_parts(bytes));
        inputs.map(|input| Capture { program: self.program, input })
    }

    fn describe(&self) -> String {
        let shown = String::from_utf8_lossy(&self.input[..self.input.len().min(2_000)]).into_owned();
        format!("{} bytes of input: {shown:?}", self.input.len())
    }
}

/// Where two outputs differ: the first such line.
pub fn compare(expected: &[u8], found: Result<Vec<u8>, String>) -> Option<String> {
    let found = match found {
        Ok(found) if found == expected => return None,
        Ok(found) => found,
        Err(error) => return Some(error),
    };
    let (expected, found) = (String::from_utf8_lossy(expected), String::from_utf8_lossy(&found));
    let same = expected.lines().zip(found.lines()).take_while(|(x, y)| x == y).count();
    let line = |text: &str| text.lines().nth(same).unwrap_or("its end").to_string();
    Some(format!("output line {} is {:?}, expected {:?}", same + 1, line(&found), line(&expected)))
}

/// An input whose output is known from the rules: reference and program must both give it.
fn expect_output(program: &Program, input: &[u8], output: &str) -> Result<(), String> {
    let wrong = compare(output.as_bytes(), Ok(tally(input))).map(|difference| format!("the reference: {difference}"));
    let wrong = wrong.or_else(|| compare(output.as_bytes(), program.run(input)));
    let shown = String::from_utf8_lossy(&input[..input.len().min(200)]);
    wrong.map_or(Ok(()), |difference| Err(format!("{shown:?}: {difference}")))
}

fn example(program: &Program) -> Verdict {
    let (input, output) = EXAMPLE;
    expect_output(program, input.as_bytes(), output)?;
    expect_output(program, heading(SHAPE).as_bytes(), "outcome page fixed\nfunction calls\n")?;
    Ok(2)
}

fn idle_captures(program: &Program) -> Verdict {
    for (words, below) in idle::CAPTURES {
        let input = heading(SHAPE) + words;
        expect_output(program, input.as_bytes(), &format!("outcome page fixed\n{below}"))?;
    }
    Ok(idle::CAPTURES.len() as u64)
}

/// The list is that of a plain tally of the recording.
fn idle_recordings(program: &Program, random: &mut Random) -> Verdict {
    let rounds = 40;
    for _ in 0..rounds {
        let shape = random.pick(&[SHAPE, Shape::new(5, 2, 1), Shape::new(5, 3, 16), Shape::new(17, 4, 32)]);
        let count = random.below(20);
        let pages = recording_of(shape, count, Page::in_runs, random);
        let input = text(shape, &pages, random).into_bytes();
        let mut list = String::from("function calls\n");
        for (function, calls) in own_tally(&pages).iter().enumerate().filter(|(_, calls)| **calls > 0) {
            list += &format!("{function} {calls}\n");
        }
        if !program.run(&input)?.ends_with(list.as_bytes()) {
            return Err(format!("the list is not {list:?}, the tally of {pages:?}"));
        }
        expect(&Capture { program, input })?;
    }
    Ok(rounds)
}

/// Inputs with a fault in lines 1 to 3, and its number.
fn headings(program: &Program, inputs: &[(String, u32)]) -> Verdict {
    for (input, number) in inputs {
        let output = format!("outcome page fixed\nrefused {number} 0\n");
        expect_output(program, input.as_bytes(), &output)?;
    }
    Ok(inputs.len() as u64)
}

/// All the lines in one capture, each followed by a good one.
fn lines(program: &Program, lines: &[(Vec<u8>, u32)]) -> Verdict {
    let mut input = heading(SHAPE).into_bytes();
    let mut output = String::from("outcome page fixed\n");
    let mut good = "taken 1 0\n";
    for (line, number) in lines {
        input.extend([line.as_slice(), b"\n", GOOD.as_bytes(), b"\n"].concat());
        output += &format!("refused {number} 0\n{good}");
        good = "again 1 0\n";
    }
    output += "function calls\n3 1\n5 1\n";
    expect_output(program, &input, &output)?;
    Ok(1)
}

/// The last line lacks its newline, whatever else it is.
fn unfinished(program: &Program) -> Verdict {
    let long = String::from_utf8_lossy(&zeros(16_384)).into_owned();
    let ends = [GOOD, "5", " ", "x", "5 2 7 3 1 2 6 3 5 ", "\0", "\r", &long, &long.repeat(2), &"y".repeat(1 << 17)];
    for end in ends {
        let input = heading(SHAPE) + GOOD + "\n" + end;
        let output = "outcome page fixed\ntaken 1 0\nrefused 10 0\nfunction calls\n3 1\n5 1\n";
        expect_output(program, input.as_bytes(), output)?;
    }
    Ok(ends.len() as u64)
}

/// One random edit of a text.
fn edit(text: &mut Vec<u8>, random: &mut Random) {
    const BYTES: &[u8] = b"0123456789 \n\r\t\0-+.xqnbword\xff";
    let at = random.below(text.len() + 1);
    match random.below(4) {
        0 if at < text.len() => drop(text.remove(at)),
        1 if at < text.len() => text[at] = random.pick(BYTES),
        2 => text.truncate(at.max(text.len().saturating_sub(3))),
        _ => text.insert(at, random.pick(BYTES)),
    }
}

fn edited_lines(program: &Program, random: &mut Random) -> Verdict {
    let rounds = 40;
    for _ in 0..rounds {
        let shape = random.pick(&[SHAPE, Shape::new(3, 3, 32), Shape::new(5, 3, 16), Shape::new(7, 2, 31)]);
        let pages = recording(shape, 60, random);
        let mut input = heading(shape).into_bytes();
        for line in word_lines(shape, &pages, random) {
            let mut line = line.into_bytes();
            (0..random.below(3)).for_each(|_| edit(&mut line, random));
            input.extend(line);
        }
        expect(&Capture { program, input })?;
    }
    Ok(rounds)
}

fn edited_captures(program: &Program, random: &mut Random) -> Verdict {
    let rounds = 600;
    for _ in 0..rounds {
        let shape = random.pick(&[SHAPE, Shape::new(3, 3, 32), Shape::new(5, 5, 11)]);
        let pages = recording(shape, 2, random);
        let mut input = text(shape, &pages, random).into_bytes();
        if random.one_in(2) {
            // Nearly all of a short text is its heading.
            input.truncate(heading(shape).len() + random.below(4));
            input.extend(line(&pages[0].codeword(shape)).bytes());
        }
        (0..1 + random.below(3)).for_each(|_| edit(&mut input, random));
        expect(&Capture { program, input })?;
    }
    Ok(rounds)
}
