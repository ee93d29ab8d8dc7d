//! Calls that nothing is wrong with, and ways to put something wrong.

use super::elsewhere::fresh;
use crate::call::{answer_of, to_bytes, After, Call, Entry};
use crate::capture::Page;
use crate::damage::{allowed, any, damaged, list};
use crate::random::Random;
use crate::reference::page::FUNCTIONS;
use crate::reference::restorer::reach;
use crate::reference::session::{CALLS_AT, CLEAN, LOWEST_AT, OUTCOMES_LEN, PAGES_AT, SESSION_LEN, TWO, VOTE};
use crate::reference::shape::{Refusal, Shape};
use crate::reference::writer::codeword;

pub const ENTRIES: [Entry; 21] = [
    Entry::Encode,
    Entry::Extract,
    Entry::Decode,
    Entry::Looked,
    Entry::DecodeMajority,
    Entry::DecodeTwo,
    Entry::DecodeNearest,
    Entry::Fill,
    Entry::Restore,
    Entry::Check,
    Entry::ReadPage,
    Entry::Marks,
    Entry::WritePage,
    Entry::Fresh,
    Entry::Count,
    Entry::Bill,
    Entry::Cover,
    Entry::Arrive,
    Entry::Batch,
    Entry::HostReadWord,
    Entry::HostReadPage,
];

/// A call that nothing is wrong with; what it only writes to is full of old numbers. Of the host pair
/// it has the standard slopes. Reading two wrong symbols refuses every shape of two directions.
pub fn good(entry: Entry, shape: Shape, random: &mut Random) -> Call {
    let shape = if entry.is_of_host() { shape.standard() } else { shape };
    let scratch = random.numbers(shape.scratch_len());
    let page = Page::any(shape, random);
    let (page_data, page_word) = (page.symbols(shape), page.damaged(shape, &allowed(CLEAN, shape, random)));
    let data = random.symbols(shape, shape.data_len());
    let word = random.symbols(shape, shape.word_len());
    let session = fresh(shape);
    let number = match entry {
        Entry::WritePage => page.number,
        Entry::Count => random.below(FUNCTIONS) as u32,
        _ => 0,
    };
    let slices = match entry {
        Entry::Encode => vec![data, scratch, random.numbers(word.len())],
        Entry::Extract => vec![word, scratch, random.numbers(data.len())],
        Entry::Decode => vec![received(CLEAN, shape, &data, random)],
        Entry::Looked => vec![received(CLEAN, shape, &data, random), random.numbers(word.len())],
        Entry::DecodeMajority => vec![received(VOTE, shape, &data, random)],
        Entry::DecodeTwo => vec![received(TWO, shape, &data, random)],
        Entry::DecodeNearest => vec![damaged(&codeword(shape, &data), &any(shape, shape.most_errors(), random))],
        Entry::Fill | Entry::Restore => dead_cells(entry, shape, &data, scratch, random),
        Entry::Check => vec![received(CLEAN, shape, &data, random), codeword(shape, &data)],
        Entry::ReadPage => vec![page_data],
        Entry::Marks => vec![page_data, random.numbers(data.len())],
        Entry::WritePage => vec![page.marks, random.numbers(data.len())],
        Entry::Fresh => vec![random.numbers(SESSION_LEN)],
        Entry::Count => vec![session],
        Entry::Bill => vec![called(session, 1, random), cheap_prices(random)],
        Entry::Cover => vec![called(session, 2, random), random.bytes(FUNCTIONS)],
        Entry::Arrive => vec![session, page_word, scratch, random.numbers(3)],
        Entry::Batch => {
            let others = (0..random.below(3)).flat_map(|_| random.symbols(shape, shape.word_len()));
            vec![session, page_word.into_iter().chain(others).collect(), scratch, random.numbers(OUTCOMES_LEN)]
        }
        Entry::HostReadWord => vec![to_bytes(&page_word)],
        Entry::HostReadPage => vec![to_bytes(&page_data)],
    };
    Call { entry, shape, number, slices }
}

/// The codeword of these symbols with damage that this way undoes.
fn received(way: u32, shape: Shape, data: &[u32], random: &mut Random) -> Vec<u32> {
    damaged(&codeword(shape, data), &allowed(way, shape, random))
}

/// As many places as there are directions, or fewer: only one codeword can agree off them. For restoring, so many other
/// symbols are wrong that it still undoes them.
fn dead_cells(entry: Entry, shape: Shape, data: &[u32], scratch: Vec<u32>, random: &mut Random) -> Vec<Vec<u32>> {
    let count = random.below(shape.n as usize + 1);
    let places = list(random.positions(count, shape.word_len()));
    let most = if entry == Entry::Restore { reach(shape, count) } else { 0 };
    let mut word = damaged(&codeword(shape, data), &any(shape, most, random));
    places.iter().for_each(|&place| word[place as usize] = random.symbol(shape));
    vec![places, word, scratch]
}

/// The session with any counts, the smaller the more shifts.
fn called(mut session: Vec<u32>, shifts: usize, random: &mut Random) -> Vec<u32> {
    let mut count = || (0..shifts).fold(random.number(), |count, _| count >> random.below(32));
    session[CALLS_AT..].fill_with(&mut count);
    session
}

/// Prices so low that no sum passes 2^64 - 1.
fn cheap_prices(random: &mut Random) -> Vec<u32> {
    (0..FUNCTIONS).map(|_| random.number() >> (8 + random.below(24))).collect()
}

/// Puts another shape in place of the call's own.
pub fn reshape(call: &mut Call, shape: Shape) {
    call.shape = shape;
    if call.entry.takes_session() {
        for (number, other) in call.slices[0].iter_mut().zip(shape.values()) {
            *number = other;
        }
    }
}

/// The call of another shape.
pub fn reshaped(call: &Call, shape: Shape) -> Call {
    let mut call = call.clone();
    reshape(&mut call, shape);
    call
}

/// A call that is turned down and leaves all as lent, each entry in its own way: an arrival says so in
/// its outcome, a count query above 2^32, a bill above 2^63, and the part that holds the marks is empty.
pub fn turned_down(call: &Call, refusal: Refusal) -> After {
    let mut after = After { answer: answer_of(Err(refusal)), slices: call.slices.clone() };
    match call.entry {
        Entry::Marks => after.answer = 0,
        Entry::Count => after.answer = (1 << 32) + u64::from(refusal.number()),
        Entry::Bill => after.answer = (1 << 63) + u64::from(refusal.number()),
        Entry::Arrive => {
            after.answer = 0;
            after.slices[3] = vec![2, refusal.number(), 0];
        }
        _ => {}
    }
    after
}

/// The call with a fault that a test after 1 and 18 would find: figures that can't be, a slice of wrong
/// length, a number too large. The number of an arrival or a bundle is its way, which is looked at first.
pub fn later_faults(call: &Call, random: &mut Random) -> Vec<Call> {
    let mut calls = vec![];
    if !matches!(call.entry, Entry::Arrive | Entry::Batch) {
        calls.push(Call { number: u32::MAX, ..call.clone() });
    }
    if call.entry.takes_session() {
        for at in [PAGES_AT, LOWEST_AT] {
            let mut call = call.clone();
            call.slices[0][at] = u32::MAX;
            calls.push(call);
        }
    }
    for i in (0..call.slices.len()).filter(|&i| tests_later(call.entry, i)) {
        let mut spoiled = |slice: Vec<u32>| calls.push(call.with_slice(i, slice));
        let slice = &call.slices[i];
        spoiled(vec![if call.entry.takes_bytes() { 255 } else { u32::MAX }; slice.len()]);
        for length in [0, slice.len().saturating_sub(1), slice.len() + 1] {
            spoiled(resized(slice, length, random));
        }
    }
    calls
}

/// Whether slice i is tested, its length first, after 1 and 18. That the list of marks is as long as the data is
/// tested before them.
fn tests_later(entry: Entry, i: usize) -> bool {
    !entry.is_fixed(i) && entry != Entry::Marks
}

/// The scratch's length before request N7: a row for every check.
pub fn old_scratch_len(shape: Shape) -> usize {
    shape.checks() * shape.row_len()
}

/// The call with slice i cut off or filled up.
pub fn with_length(call: &Call, i: usize, length: usize, random: &mut Random) -> Call {
    call.with_slice(i, resized(&call.slices[i], length, random))
}

/// The slice cut off or filled up.
pub fn resized(slice: &[u32], length: usize, random: &mut Random) -> Vec<u32> {
    let mut slice = slice.to_vec();
    let filler = random.below(256) as u32;
    slice.resize(length, filler);
    slice
}

/// The shape with a slope that is too large, or stands twice, among those that count for `lawful`.
pub fn bad_slope(shape: Shape, lawful: Shape, random: &mut Random) -> Shape {
    let mut slopes = shape.slopes;
    let last = lawful.own_slopes().len() - 1;
    let bad = random.pick(&[lawful.q, u32::MAX, slopes[0]]);
    slopes[last] = if last == 0 { lawful.q } else { bad };
    shape.with_slopes(slopes)
}

/// Every choice of faults; in each they stand in this order.
pub fn choices(order: &[Refusal]) -> Vec<Vec<Refusal>> {
    let chosen = |bits: usize| (0..order.len()).filter(|i| bits >> i & 1 == 1).map(|i| order[i]).collect();
    (0..1 << order.len()).map(chosen).collect()
}

/// The shape with those of the faults that are about one: a bad slope, a width that is none.
pub fn spoiled(shape: Shape, faults: &[Refusal], random: &mut Random) -> Shape {
    let sloped = if faults.contains(&Refusal::Slope) { bad_slope(shape, shape, random) } else { shape };
    let b = if faults.contains(&Refusal::Shape) { 33 } else { shape.b };
    Shape { b, ..sloped }
}
