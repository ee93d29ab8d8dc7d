//! The coverage viewer: which bytes are yes for which counts, what a refusal leaves, recordings. What must
//! come of each call is said here, not asked of the reference, which is held to it like the library.

use super::calls::{choices, reshaped, spoiled, turned_down};
use super::elsewhere::{any_marks, arriving, begin, figures, marked, readable, session, some_pages, wrong_figures};
use super::every::{Shapes, ONE_WIDTH};
use super::expect::expect;
use crate::call::{After, Call, Entry, Make};
use crate::random::Random;
use crate::reference::page::FUNCTIONS;
use crate::reference::shape::{Refusal, Shape};
use crate::report::{Group, Unit, Verdict};
use std::collections::BTreeSet;

/// Counts above zero, some of which a byte would lose.
const COUNTS: [u32; 9] = [1, 2, 3, 255, 256, 1 << 16, 1 << 31, 0xffff_ff00, u32::MAX];

/// The group for whichever makes the calls.
pub fn group(name: String, make: Make) -> Group {
    let mut group = Group::new(name, Unit::Calls);
    let mut shapes = Shapes::new(&mut group, make, ONE_WIDTH);
    shapes.test("single functions, (q, n)", single_functions);
    shapes.test("any functions, (q, n)", any_functions);
    shapes.test("lengths, (q, n)", lengths);
    shapes.test("several faults, (q, n)", several_faults);
    shapes.test("recordings, (q, n)", recordings);
    group
}

/// A call with these counts, of a session from elsewhere; the slice is full of old bytes.
fn cover(shape: Shape, calls: &[u32], random: &mut Random) -> Call {
    let come = some_pages(random);
    let session = marked(shape, &come, calls, random);
    Call::new(Entry::Cover, shape, &[&session, &random.bytes(FUNCTIONS)])
}

/// The answer where exactly these functions are yes.
fn covered(call: &Call, functions: &BTreeSet<usize>) -> After {
    let bytes = (0..FUNCTIONS).map(|function| u32::from(functions.contains(&function))).collect();
    After { answer: functions.len() as u64, slices: vec![call.slices[0].clone(), bytes] }
}

/// One function alone was called, 0 among them; and all but one.
fn single_functions(make: Make, shape: Shape, random: &mut Random) -> Verdict {
    let any: Vec<usize> = (0..6).map(|_| random.below(FUNCTIONS)).collect();
    let mut tried = 0;
    for function in [0, 1, 2, 127, 128, 254, 255].into_iter().chain(any) {
        for count in COUNTS {
            let mut calls = vec![0; FUNCTIONS];
            calls[function] = count;
            let call = cover(shape, &calls, random);
            expect(make, &call, &covered(&call, &BTreeSet::from([function])))?;
            let mut calls = vec![count; FUNCTIONS];
            calls[function] = 0;
            let call = cover(shape, &calls, random);
            let others = (0..FUNCTIONS).filter(|&other| other != function).collect();
            expect(make, &call, &covered(&call, &others))?;
            tried += 2;
        }
    }
    Ok(tried)
}

/// Any of the functions were called, few or many, or none, or all.
fn any_functions(make: Make, shape: Shape, random: &mut Random) -> Verdict {
    let rounds = 40;
    for round in 0..rounds {
        let often = 1 + random.below(8);
        let called: BTreeSet<usize> = match round {
            0 => BTreeSet::new(),
            1 => (0..FUNCTIONS).collect(),
            _ => (0..FUNCTIONS).filter(|_| random.one_in(often)).collect(),
        };
        let count = |function| if called.contains(&function) { random.pick(&COUNTS) } else { 0 };
        let calls: Vec<u32> = (0..FUNCTIONS).map(count).collect();
        let call = cover(shape, &calls, random);
        expect(make, &call, &covered(&call, &called))?;
    }
    Ok(rounds)
}

/// 255 bytes, 257 and others: 2, and none is written.
fn lengths(make: Make, shape: Shape, random: &mut Random) -> Verdict {
    let mut tried = 0;
    for count in [0, 1] {
        let call = cover(shape, &[count; FUNCTIONS], random);
        for length in [0, 1, 255, 257, 512, 1024] {
            let call = call.with_slice(1, random.bytes(length));
            expect(make, &call, &turned_down(&call, Refusal::Length))?;
            tried += 1;
        }
    }
    Ok(tried)
}

/// The tests in their order.
const ORDER: [Refusal; 4] = [Refusal::Shape, Refusal::Slope, Refusal::Figures, Refusal::Length];

/// Every choice of faults: the first in order is the answer, and the slice is as it was.
fn several_faults(make: Make, shape: Shape, random: &mut Random) -> Verdict {
    let mut tried = 0;
    for faults in choices(&ORDER) {
        let has = |refusal: Refusal| faults.contains(&refusal);
        let come = some_pages(random);
        let marks = any_marks(&come, random);
        let wrong = random.pick(&wrong_figures(&come, &marks));
        let figures = if has(Refusal::Figures) { wrong } else { figures(&come) };
        let length = if has(Refusal::Length) { random.pick(&[0, 255, 257]) } else { FUNCTIONS };
        let session = session(shape, figures, &marks, &[random.pick(&COUNTS); FUNCTIONS]);
        let call = Call::new(Entry::Cover, shape, &[&session, &random.bytes(length)]);
        let call = reshaped(&call, spoiled(shape, &faults, random));
        match faults.first() {
            Some(&refusal) => expect(make, &call, &turned_down(&call, refusal))?,
            None => expect(make, &call, &covered(&call, &(0..FUNCTIONS).collect()))?,
        }
        tried += 1;
    }
    Ok(tried)
}

/// From a fresh session on: after each arrival yes is said of the functions from 1 on that a page so far
/// has a mark for.
fn recordings(make: Make, shape: Shape, random: &mut Random) -> Verdict {
    let (mut session, pages) = begin(make, shape, random);
    let arriving = arriving(&pages, 2, random);
    let mut marked = BTreeSet::new();
    for &page in &arriving {
        let (call, _) = readable(shape, &session, page, random);
        session = make(&call).slices.swap_remove(0);
        marked.extend(page.marks.iter().map(|&mark| mark as usize).filter(|&mark| mark != 0));
        let call = Call::new(Entry::Cover, shape, &[&session, &random.bytes(FUNCTIONS)]);
        expect(make, &call, &covered(&call, &marked))?;
    }
    Ok(arriving.len() as u64)
}
