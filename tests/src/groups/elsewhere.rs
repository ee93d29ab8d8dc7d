//! Sessions from elsewhere and fresh ones, and pages that come to them. What is in a session is said by a plain set
//! of page numbers.

use crate::call::{After, Call, Entry, Make};
use crate::capture::{recording_of, Page};
use crate::damage::allowed;
use crate::random::Random;
use crate::reference::page::{FUNCTIONS, PAGES};
use crate::reference::session::{CALLS_AT, CLEAN, SESSION_LEN};
use crate::reference::shape::Shape;
use std::collections::BTreeSet;

/// The pages that have come.
pub type Come = BTreeSet<u32>;

/// All page numbers, and the lowest number not taken where all are.
pub const ALL: u32 = PAGES as u32;

/// Pages that have come elsewhere.
pub fn some_pages(random: &mut Random) -> Come {
    (0..PAGES as u32).filter(|_| random.one_in(3)).collect()
}

/// The numbers from 0 on that are all there, in order, come before it.
pub fn lowest_missing(come: &Come) -> u32 {
    come.iter().zip(0..).take_while(|(&page, number)| page == *number).count() as u32
}

pub fn figures(come: &Come) -> [u32; 2] {
    [come.len() as u32, lowest_missing(come)]
}

/// A session as it crosses.
pub fn session(shape: Shape, figures: [u32; 2], marks: &[u32], calls: &[u32]) -> Vec<u32> {
    [&shape.values()[..], &figures, marks, calls].concat()
}

/// Numbers that a yes may cross as.
const YES: [u32; 8] = [1, 1, 2, 255, 256, 1 << 16, 1 << 31, u32::MAX];

/// Each yes crosses as 1.
pub fn plain_marks(come: &Come) -> Vec<u32> {
    let mut marks = vec![0; PAGES];
    come.iter().for_each(|&page| marks[page as usize] = 1);
    marks
}

/// Each yes crosses as any nonzero number.
pub fn any_marks(come: &Come, random: &mut Random) -> Vec<u32> {
    plain_marks(come).into_iter().map(|mark| mark * random.pick(&YES)).collect()
}

/// Counts that a page's marks don't fill.
pub fn any_calls(random: &mut Random) -> Vec<u32> {
    (0..FUNCTIONS).map(|_| random.number() >> (1 + random.below(31))).collect()
}

/// These pages have come, and the marks are plain.
pub fn plain(shape: Shape, come: &Come, calls: &[u32]) -> Vec<u32> {
    session(shape, figures(come), &plain_marks(come), calls)
}

/// These pages have come, and the marks are any.
pub fn marked(shape: Shape, come: &Come, calls: &[u32], random: &mut Random) -> Vec<u32> {
    session(shape, figures(come), &any_marks(come, random), calls)
}

/// Any pages have come, and the counts are near both ends.
pub fn any_session(shape: Shape, random: &mut Random) -> Vec<u32> {
    let marks: Vec<u32> = (0..PAGES).map(|_| if random.one_in(3) { random.pick(&YES) } else { 0 }).collect();
    let come: Come = (0..ALL).filter(|&page| marks[page as usize] != 0).collect();
    let mut count = |_| match random.below(3) {
        0 => 0,
        1 => random.number(),
        _ => u32::MAX - random.below(4) as u32,
    };
    let calls: Vec<u32> = (0..FUNCTIONS).map(&mut count).collect();
    session(shape, figures(&come), &marks, &calls)
}

/// Nothing has come or is counted.
pub fn fresh(shape: Shape) -> Vec<u32> {
    plain(shape, &Come::new(), &[0; FUNCTIONS])
}

/// Figures that are not those of the set: off by one, swapped, zero, full, of another set, far away,
/// and right but for the upper bits.
pub fn wrong_figures(come: &Come, marks: &[u32]) -> Vec<[u32; 2]> {
    let [pages, lowest] = figures(come);
    let sum = marks.iter().fold(0, |sum: u32, &mark| sum.wrapping_add(mark));
    let next = (lowest + 1..ALL).find(|page| !come.contains(page)).unwrap_or(ALL);
    let after_last = come.last().map_or(0, |page| page + 1);
    let around = |right: u32| {
        let near = [right.wrapping_sub(1), right + 1, 0, 1, 2, ALL - 1, ALL, ALL + 1, u32::MAX];
        near.into_iter().chain([8, 10, 16, 31].map(|bit| right ^ 1 << bit))
    };
    let mut wrong = vec![[lowest, pages], [0, 0], [0, 1], [ALL, ALL], [u32::MAX, u32::MAX]];
    wrong.extend([[pages + 1, lowest + 1], [pages.wrapping_sub(1), lowest.wrapping_sub(1)], [pages + 1, next]]);
    wrong.extend(around(pages).chain([lowest, sum, ALL - pages]).map(|other| [other, lowest]));
    wrong.extend(around(lowest).chain([pages, next, after_last]).map(|other| [pages, other]));
    wrong.retain(|&other| other != [pages, lowest]);
    wrong
}

/// The arrival of a word, read this way; scratch and outcome are full of old numbers.
pub fn arrival(way: u32, shape: Shape, session: &[u32], word: &[u32], random: &mut Random) -> Call {
    let scratch = random.numbers(shape.scratch_len());
    Call::numbered(Entry::Arrive, shape, way, &[session, word, &scratch, &[9; 3]])
}

/// The arrival of a page with damage that reading undoes, and how many symbols it changes.
pub fn readable(shape: Shape, session: &[u32], page: &Page, random: &mut Random) -> (Call, u32) {
    let error = allowed(CLEAN, shape, random);
    (arrival(CLEAN, shape, session, &page.damaged(shape, &error), random), error.len() as u32)
}

/// What the arrival of this page leaves where these have come. The page is one of them from then on.
pub fn after_arrival(call: &Call, page: &Page, weight: u32, come: &mut Come) -> After {
    let mut slices = call.slices.clone();
    let again = !come.insert(page.number);
    if !again {
        let mut calls = slices[0][CALLS_AT..].to_vec();
        page.calls().for_each(|function| calls[function] += 1);
        slices[0] = plain(call.shape, come, &calls);
    }
    slices[1] = page.codeword(call.shape);
    slices[2].fill(0);
    slices[3] = vec![u32::from(again), page.number, weight];
    After { answer: 0, slices }
}

/// A fresh session of whichever makes the calls, and a recording whose marks come in runs.
pub fn begin(make: Make, shape: Shape, random: &mut Random) -> (Vec<u32>, Vec<Page>) {
    let fresh = Call::new(Entry::Fresh, shape, &[&random.numbers(SESSION_LEN)]);
    let session = make(&fresh).slices.swap_remove(0);
    (session, recording_of(shape, 8, Page::in_runs, random))
}

/// The pages as they come: each up to so many times, in any order.
pub fn arriving<'a>(pages: &'a [Page], most: usize, random: &mut Random) -> Vec<&'a Page> {
    let mut arriving: Vec<&Page> = pages.iter().flat_map(|page| vec![page; 1 + random.below(most)]).collect();
    random.shuffle(&mut arriving);
    arriving
}
