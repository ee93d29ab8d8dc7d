//! How the linked program takes its input: in pieces, across block borders, long, and without end.

use super::faults::SHAPE;
use super::text::{compare, Capture};
use crate::capture::{heading, recording, word_lines};
use crate::process::Program;
use crate::random::Random;
use crate::reference::program::{tally, MAX_INPUT, MAX_LINE};
use crate::reference::shape::Shape;
use crate::report::{Group, Unit, Verdict};
use crate::shrink::expect;
use std::time::Duration;

/// Sizes of blocks that a program may read or buffer.
const BLOCKS: [usize; 6] = [4_096, 8_192, 16_384, 32_768, 65_536, 131_072];

const PAUSE: Duration = Duration::from_micros(500);

pub fn group(program: &Program) -> Group {
    let mut group = Group::new("program, input", Unit::Captures);
    for last in [MAX_INPUT, MAX_INPUT + 1] {
        let name = format!("a newline as byte {last}");
        group.test_program(name, program, move |program, _| without_end(program, last));
    }
    for shape in [Shape::new(17, 4, 32), Shape::new(31, 8, 32), Shape::new(31, 2, 16), Shape::new(5, 3, 16)] {
        let Shape { q, n, b, .. } = shape;
        let name = format!("a long capture of ({q}, {n}, {b})");
        group.test_program(name, program, move |program, random| long(program, shape, random));
    }
    for block in BLOCKS {
        let name = format!("cut around {block}");
        group.test_program(name, program, move |program, random| cut(program, block, random));
        let name = format!("longest lines around {block}");
        group.test_program(name, program, move |program, _| longest_lines(program, block));
    }
    group.test_program("line ends everywhere in a block", program, shifted);
    group.test_program("byte by byte", program, byte_by_byte);
    group.test_program("random pieces", program, random_pieces);
    group
}

/// Shapes with short lines.
const SHAPES: [Shape; 3] = [SHAPE, Shape::new(3, 3, 32), Shape::new(5, 3, 16)];

/// A capture of at least `length` bytes.
fn capture(shape: Shape, length: usize, random: &mut Random) -> Vec<u8> {
    let pages = recording(shape, 1024, random);
    let mut input = heading(shape).into_bytes();
    while input.len() < length {
        input.extend(word_lines(shape, &pages, random).concat().bytes());
    }
    input
}

/// What the program wrote for an input, however it came, must be what the reference says.
fn expect_tally(input: &[u8], how: &str, written: Result<Vec<u8>, String>) -> Result<(), String> {
    let difference = compare(&tally(input), written);
    difference.map_or(Ok(()), |difference| Err(format!("{} bytes {how}: {difference}", input.len())))
}

fn expect_pieces<'a>(
    program: &Program,
    input: &[u8],
    pieces: impl Iterator<Item = &'a [u8]> + Send,
) -> Result<(), String> {
    expect_tally(input, "in pieces", program.run_pieces(pieces, PAUSE))
}

fn cut(program: &Program, block: usize, random: &mut Random) -> Verdict {
    let input = capture(random.pick(&SHAPES), block + 10_000, random);
    expect(&Capture { program, input: input.clone() })?;
    for at in block - 4..=block + 4 {
        let (first, second) = input.split_at(at);
        expect_pieces(program, &input, [first, second].into_iter())?;
    }
    Ok(10)
}

fn byte_by_byte(program: &Program, random: &mut Random) -> Verdict {
    let mut input = capture(random.pick(&SHAPES), 600, random);
    input.truncate(600);
    expect_pieces(program, &input, input.chunks(1))?;
    Ok(1)
}

fn random_pieces(program: &Program, random: &mut Random) -> Verdict {
    let rounds = 30;
    for _ in 0..rounds {
        let input = capture(random.pick(&SHAPES), 200_000, random);
        let mut pieces = vec![];
        let mut rest = &input[..];
        while !rest.is_empty() {
            let most = random.pick(&[3, 100, 5_000, 70_000, 100_000]);
            let (piece, more) = rest.split_at(rest.len().min(1 + random.below(most)));
            pieces.push(piece);
            rest = if pieces.len() < 100 { more } else { &[] };
        }
        let sent = pieces.concat();
        expect_pieces(program, &sent, pieces.into_iter())?;
    }
    Ok(rounds)
}

fn expect_file(program: &Program, input: &[u8]) -> Result<(), String> {
    expect_tally(input, "from a file", program.run_file(input))
}

/// From a file, with a first line that moves all others by one byte more each time.
fn shifted(program: &Program, random: &mut Random) -> Verdict {
    let shape = random.pick(&SHAPES);
    let input = capture(shape, 150_000, random);
    let (start, words) = input.split_at(heading(shape).len());
    let shifts = 100;
    for shift in 0..shifts {
        let filler = format!("{}\n", "x".repeat(shift));
        expect_file(program, &[start, filler.as_bytes(), words].concat())?;
    }
    Ok(shifts as u64)
}

/// Lines of exactly the longest length and of one more that begin or end around a block's border.
fn longest_lines(program: &Program, block: usize) -> Verdict {
    let mut tried = 0;
    for border in [block, block + MAX_LINE, block + MAX_LINE / 2] {
        for begin in border - 2..=border + 2 {
            let mut input = filled(begin);
            for length in [MAX_LINE, MAX_LINE + 1, MAX_LINE, MAX_LINE + 2] {
                let values = vec!["0"; length / 2].join(" ");
                input.extend(if length % 2 == 0 { values } else { format!("1{values}") }.bytes());
                input.extend(b"\n5 2 7 3 1 2 6 3 5\n");
            }
            expect_file(program, &input)?;
            tried += 1;
        }
    }
    Ok(tried)
}

/// A capture of refused lines that is exactly `length` bytes long.
fn filled(length: usize) -> Vec<u8> {
    let mut input = heading(SHAPE).into_bytes();
    while input.len() < length {
        let line = (length - input.len()).min(1_000);
        input.extend(vec![b'x'; line - 1]);
        input.push(b'\n');
    }
    input
}

/// A few megabytes.
fn long(program: &Program, shape: Shape, random: &mut Random) -> Verdict {
    let input = capture(shape, 3_000_000, random);
    expect(&Capture { program, input: input.clone() })?;
    expect_file(program, &input)?;
    Ok(2)
}

/// What is said where the limit was reached, whether anything follows or not.
const LIMIT: &str = "tally: 4294967295 bytes read, the most that are read; what follows counts as absent\n";

/// More bytes than are read: a page's newline is byte `last`, the first byte being 1. Up to 2^32 - 1
/// that is a page; one byte later the newline counts as absent. Nothing after it is read, and standard
/// error, which is no terminal, says so.
fn without_end(program: &Program, last: usize) -> Verdict {
    let start = heading(SHAPE).into_bytes();
    let end = b"\n5 2 7 3 1 2 6 3 5\n";
    let after = b"x\n".repeat(100);
    let chunk = vec![b'x'; 1 << 20];
    let filler = last - start.len() - end.len();
    let fill = std::iter::repeat_n(&chunk[..], filler >> 20).chain([&chunk[..filler % (1 << 20)]]);
    let pieces = [&start[..]].into_iter().chain(fill).chain([&end[..], &after[..]]);
    let outcome =
        if last <= MAX_INPUT { "taken 1 0\nfunction calls\n3 1\n5 1\n" } else { "refused 10 0\nfunction calls\n" };
    let expected = format!("outcome page fixed\nrefused 10 0\n{outcome}");
    let (written, rest) = program.run_leaving(pieces)?;
    let unread = [&end[..], &after[..]].concat();
    if rest != unread[unread.len() - after.len() - (last - MAX_INPUT)..] {
        return Err(format!("{} bytes are left of the input, expected {}", rest.len(), after.len() + last - MAX_INPUT));
    }
    if written.error != LIMIT.as_bytes() {
        return Err(format!("it says {:?}, expected {LIMIT:?}", String::from_utf8_lossy(&written.error)));
    }
    compare(expected.as_bytes(), Ok(written.output)).map_or(Ok(1), Err)
}
