//! The tally program in plain Rust over the tuned reader, to compare the proved program's speed with.
//! It reads blocks of 64 KiB, as the proved one does, copies only lines that straddle two blocks, and
//! gathers its output.

use shaftglimmer_tests::reference::program::{MAX_INPUT, MAX_LINE};
use shaftglimmer_tests::reference::session::Outcome;
use shaftglimmer_tests::reference::shape::{Refusal, Shape};
use shaftglimmer_tests::rivals::arrival::{State, Way};
use shaftglimmer_tests::rivals::tuned;
use std::io::{self, Read, Write};
use std::ops::ControlFlow;

const BLOCK: usize = 1 << 16;

fn main() -> io::Result<()> {
    let mut machine = Machine::new();
    let ended = feed(&mut machine)?;
    if ended.is_continue() {
        machine.end();
    }
    machine.output.flush()
}

/// Hands every line to the machine: its bytes with the newline, or nothing if it is too long or has
/// no newline.
fn feed(machine: &mut Machine) -> io::Result<ControlFlow<()>> {
    let mut input = io::stdin().lock().take(MAX_INPUT as u64);
    let mut block = vec![0; BLOCK];
    let mut part = Part::default();
    loop {
        let length = input.read(&mut block)?;
        if length == 0 {
            break;
        }
        for piece in block[..length].split_inclusive(|&byte| byte == b'\n') {
            let whole = piece.ends_with(b"\n");
            if whole && part.length == 0 {
                if machine.line(Some(piece).filter(|piece| piece.len() <= MAX_LINE))?.is_break() {
                    return Ok(ControlFlow::Break(()));
                }
                continue;
            }
            part.append(piece);
            if whole {
                if machine.line(part.line())?.is_break() {
                    return Ok(ControlFlow::Break(()));
                }
                part.length = 0;
            }
        }
    }
    if part.length > 0 {
        return machine.line(None);
    }
    Ok(ControlFlow::Continue(()))
}

/// The pieces of a line that lies in several blocks.
struct Part {
    bytes: [u8; MAX_LINE],
    /// The whole line's length so far; it may be more than there is room for.
    length: usize,
}

impl Default for Part {
    fn default() -> Part {
        Part { bytes: [0; MAX_LINE], length: 0 }
    }
}

impl Part {
    fn append(&mut self, piece: &[u8]) {
        let end = self.length + piece.len();
        if end <= MAX_LINE {
            self.bytes[self.length..end].copy_from_slice(piece);
        }
        self.length = end;
    }

    fn line(&self) -> Option<&[u8]> {
        self.bytes.get(..self.length)
    }
}

/// What is done with each line in turn.
struct Machine {
    lines: u8,
    state: State,
    word: [u32; 961],
    scratch: Vec<u32>,
    output: Output,
}

impl Machine {
    fn new() -> Machine {
        let mut output = Output { bytes: Vec::with_capacity(BLOCK) };
        output.bytes.extend(b"outcome page fixed\n");
        Machine { lines: 0, state: State::fresh(Shape::new(0, 0, 0)), word: [0; 961], scratch: vec![], output }
    }

    fn line(&mut self, line: Option<&[u8]>) -> io::Result<ControlFlow<()>> {
        if self.lines == 3 {
            let outcome = self.arrive(line);
            self.output.outcome(outcome)?;
            return Ok(ControlFlow::Continue(()));
        }
        let opened = self.opening(line.unwrap_or_default());
        self.lines += 1;
        match opened {
            Ok(()) => Ok(ControlFlow::Continue(())),
            Err(refusal) => {
                self.output.outcome(Outcome::Refused(refusal))?;
                Ok(ControlFlow::Break(()))
            }
        }
    }

    /// Lines 1 to 3.
    fn opening(&mut self, line: &[u8]) -> Result<(), Refusal> {
        match self.lines {
            0 if line == b"q n b\n" => Ok(()),
            1 if values(line, &mut self.word) == Some(3) => {
                let shape = Shape::new(self.word[0], self.word[1], self.word[2]);
                shape.judge()?;
                self.state = State::fresh(shape);
                self.scratch = vec![0; shape.scratch_len()];
                Ok(())
            }
            2 if line == b"word\n" => Ok(()),
            _ => Err(Refusal::Syntax),
        }
    }

    fn arrive(&mut self, line: Option<&[u8]>) -> Outcome {
        let shape = self.state.shape;
        let Some(count) = line.and_then(|line| values(line, &mut self.word)) else {
            return Outcome::Refused(Refusal::Syntax);
        };
        if count != shape.word_len() {
            return Outcome::Refused(Refusal::Length);
        }
        let extract = |word: &[u32], data: &mut [u32]| tuned::extract(shape, word, data);
        let way = Way { decode: tuned::decode, extract: &extract };
        self.state.arrive(way, &mut self.word[..count], &mut self.scratch)
    }

    /// At the end of the input: the counts, or what is missing of lines 1 to 3.
    fn end(&mut self) {
        if self.lines < 3 {
            self.output.bytes.extend(b"refused 10 0\n");
            return;
        }
        self.output.bytes.extend(b"function calls\n");
        for (function, &calls) in self.state.calls.iter().enumerate().filter(|(_, calls)| **calls > 0) {
            self.output.number(function as u32, b' ');
            self.output.number(calls, b'\n');
        }
    }
}

/// Parses a line with its newline; the values that there is room for are stored, and all counted.
fn values(line: &[u8], into: &mut [u32]) -> Option<usize> {
    let mut count = 0;
    let mut value: u64 = 0;
    let mut digits = 0;
    for &byte in line {
        match byte {
            b'0'..=b'9' if digits == 0 || value != 0 => {
                value = value * 10 + u64::from(byte - b'0');
                digits += 1;
                if digits > 10 {
                    return None;
                }
            }
            b' ' | b'\n' if digits > 0 => {
                let fits = u32::try_from(value).ok()?;
                if let Some(place) = into.get_mut(count) {
                    *place = fits;
                }
                count += 1;
                (value, digits) = (0, 0);
            }
            _ => return None,
        }
    }
    Some(count)
}

/// Output, gathered until there is a block of it.
struct Output {
    bytes: Vec<u8>,
}

impl Output {
    fn outcome(&mut self, outcome: Outcome) -> io::Result<()> {
        let [kind, number, corrected] = outcome.values();
        self.bytes.extend([&b"taken "[..], b"again ", b"refused "][kind as usize]);
        self.number(number, b' ');
        self.number(corrected, b'\n');
        if self.bytes.len() > BLOCK - 64 {
            self.flush()?;
        }
        Ok(())
    }

    fn number(&mut self, mut number: u32, end: u8) {
        let mut digits = [0; 10];
        let mut at = digits.len();
        loop {
            at -= 1;
            digits[at] = b'0' + (number % 10) as u8;
            number /= 10;
            if number == 0 {
                break;
            }
        }
        self.bytes.extend(&digits[at..]);
        self.bytes.push(end);
    }

    fn flush(&mut self) -> io::Result<()> {
        let mut output = io::stdout().lock();
        output.write_all(&self.bytes)?;
        output.flush()?;
        self.bytes.clear();
        Ok(())
    }
}
