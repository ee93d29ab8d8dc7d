//! The rules' bench values, and some for other slopes, as calls with what must come of them.

use super::elsewhere::fresh;
use crate::call::{answer_of, difference, to_bytes, After, Call, Entry, Make};
use crate::reference::session::{CALLS_AT, CLEAN, LOWEST_AT, MARKS_AT, PAGES_AT, SESSION_LEN, TWO, VOTE};
use crate::reference::shape::{Refusal, Shape, SLOPES};
use crate::report::{Group, Unit};

const B3: Shape = Shape::new(3, 3, 3);
const B8: Shape = Shape::new(3, 2, 8);
const B9: Shape = Shape::new(3, 2, 9);
const B11: Shape = Shape::new(3, 2, 11);
const P4_WORD: [u32; 9] = [3, 6, 5, 5, 3, 6, 6, 5, 3];
const P5_WORD: [u32; 9] = [3, 6, 5, 2, 2, 6, 6, 5, 3];
const P6_WORD: [u32; 9] = [3, 6, 5, 2, 4, 6, 6, 5, 3];
const P7_WORD: [u32; 9] = [5, 2, 7, 3, 1, 2, 6, 3, 5];
/// Page 2 with the marks 0 and 5, page 4 with the marks 0 and 0.
const IDLE_5_WORD: [u32; 9] = [5, 2, 7, 0, 2, 2, 5, 0, 5];
const IDLE_WORD: [u32; 9] = [6, 4, 2, 6, 4, 2, 0, 0, 0];

struct Vector {
    name: String,
    call: Call,
    expected: After,
}

/// The group for the reference or for the library, whichever makes the calls.
pub fn group(name: String, make: Make) -> Group {
    let mut group = Group::new(name, Unit::Calls);
    for Vector { name, call, expected } in vectors() {
        group.test(name, move |_| difference(call.entry, &expected, &make(&call)).map_or(Ok(1), Err));
    }
    group
}

fn vectors() -> Vec<Vector> {
    let of_words = [positions(), words(), nearest(), old_scratch(), dead_cells(), restored(), pages()];
    let of_sessions = [arrivals(), masked_page(), idle(), figures(), shapes(), slopes()];
    of_words.into_iter().chain(of_sessions).flatten().collect()
}

/// A call that answers `result` and leaves each slice as said.
fn vector(name: impl Into<String>, call: Call, result: Result<u32, Refusal>, slices: &[&[u32]]) -> Vector {
    let slices = slices.iter().map(|slice| slice.to_vec()).collect();
    Vector { name: name.into(), call, expected: After { answer: answer_of(result), slices } }
}

/// A call that leaves every slice as it was.
fn unchanging(name: impl Into<String>, call: Call, result: Result<u32, Refusal>) -> Vector {
    let expected = After { answer: answer_of(result), slices: call.slices.clone() };
    Vector { name: name.into(), call, expected }
}

/// Extraction from a word whose symbols are their own positions.
fn positions() -> Vec<Vector> {
    let word = [0, 1, 2, 3, 4, 5, 6, 7, 8];
    let extract = |shape: Shape, data: &[u32]| {
        let scratch = vec![7; shape.scratch_len()];
        Call::new(Entry::Extract, shape, &[&word, &scratch, data])
    };
    vec![
        vector("P1", extract(B8, &[9; 4]), Ok(0), &[&word, &[0; 5], &[4, 5, 7, 8]]),
        vector("P2", extract(Shape::new(3, 3, 8), &[9; 2]), Ok(0), &[&word, &[0; 7], &[7, 8]]),
    ]
}

fn words() -> Vec<Vector> {
    let encode = |shape: Shape, data: &[u32]| {
        let scratch = vec![7; shape.scratch_len()];
        Call::new(Entry::Encode, shape, &[data, &scratch, &[1; 9]])
    };
    let p3 = encode(Shape::new(3, 2, 3), &[3, 5, 6, 7]);
    let decode = |word: &[u32]| Call::new(Entry::Decode, B3, &[word]);
    let vote = |word: &[u32]| Call::new(Entry::DecodeMajority, B3, &[word]);
    let decode_two = |shape: Shape, word: &[u32]| Call::new(Entry::DecodeTwo, shape, &[word]);
    let host = |word: &[u32]| Call::new(Entry::HostReadWord, B3, &[&to_bytes(word)]);
    let one_damaged = [3, 6, 5, 2, 3, 6, 6, 5, 3];
    vec![
        vector("P3", p3, Ok(0), &[&[3, 5, 6, 7], &[0; 5], &[7, 5, 2, 6, 3, 5, 1, 6, 7]]),
        vector("P4", encode(B3, &[5, 3]), Ok(0), &[&[5, 3], &[0; 7], &P4_WORD]),
        unchanging("P4 read", decode(&P4_WORD), Ok(0)),
        vector("P5", decode(&P5_WORD), Ok(2), &[&P4_WORD]),
        vector("P5 for the host", host(&P5_WORD), Ok(2), &[&to_bytes(&P4_WORD)]),
        unchanging("P6", decode(&P6_WORD), Err(Refusal::Uncorrectable)),
        unchanging("P4 by vote", vote(&P4_WORD), Ok(0)),
        vector("P4 by vote, 7 on digit 3", vote(&one_damaged), Ok(1), &[&P4_WORD]),
        unchanging("P5 by vote", vote(&P5_WORD), Err(Refusal::NoMajority)),
        unchanging("P6 by vote", vote(&P6_WORD), Err(Refusal::NoMajority)),
        unchanging("P6 for the host", host(&P6_WORD), Err(Refusal::Uncorrectable)),
        unchanging("P4 as two", decode_two(B3, &P4_WORD), Ok(0)),
        vector("P5 as two", decode_two(B3, &P5_WORD), Ok(2), &[&P4_WORD]),
        vector("P6 as two", decode_two(B3, &P6_WORD), Ok(2), &[&P4_WORD]),
        unchanging("three on a row as two", decode_two(B3, &[3, 6, 5, 2, 4, 1, 6, 5, 3]), Err(Refusal::BeyondTwo)),
        unchanging("P7 as two", decode_two(B8, &P7_WORD), Err(Refusal::Directions)),
        unchanging("P7 cut off, as two", decode_two(B8, &P7_WORD[..8]), Err(Refusal::Directions)),
        unchanging("P4 cut off, as two", decode_two(B3, &P4_WORD[..8]), Err(Refusal::Length)),
        unchanging("P4 with an 8, as two", decode_two(B3, &[8, 6, 5, 5, 3, 6, 6, 5, 3]), Err(Refusal::Width)),
        vector("P7", encode(B8, &[1, 2, 3, 5]), Ok(0), &[&[1, 2, 3, 5], &[0; 5], &P7_WORD]),
        vector("marks 0 5", encode(B8, &[2, 2, 0, 5]), Ok(0), &[&[2, 2, 0, 5], &[0; 5], &IDLE_5_WORD]),
        vector("marks 0 0", encode(B8, &[4, 2, 0, 0]), Ok(0), &[&[4, 2, 0, 0], &[0; 5], &IDLE_WORD]),
    ]
}

/// With three directions two wrong symbols come back, with two directions one.
fn nearest() -> Vec<Vector> {
    let nearest = |shape: Shape, word: &[u32]| Call::new(Entry::DecodeNearest, shape, &[word]);
    vec![
        unchanging("P4, nearest", nearest(B3, &P4_WORD), Ok(0)),
        vector("P5, nearest", nearest(B3, &P5_WORD), Ok(2), &[&P4_WORD]),
        vector("P6, nearest", nearest(B3, &P6_WORD), Ok(2), &[&P4_WORD]),
        unchanging("three on a row, nearest", nearest(B3, &[3, 6, 5, 2, 4, 1, 6, 5, 3]), Err(Refusal::Far)),
        vector("P7 with a 12, nearest", nearest(B8, &[12, 2, 7, 3, 1, 2, 6, 3, 5]), Ok(1), &[&P7_WORD]),
        unchanging("P7 with a 12 and a 0, nearest", nearest(B8, &[12, 2, 7, 3, 0, 2, 6, 3, 5]), Err(Refusal::Far)),
        unchanging("P4 cut off, nearest", nearest(B3, &P4_WORD[..8]), Err(Refusal::Length)),
        unchanging("P4 with an 8, nearest", nearest(B3, &[8, 6, 5, 5, 3, 6, 6, 5, 3]), Err(Refusal::Width)),
    ]
}

/// Extraction and writing of P4 and an arrival of P7, each with the scratch that was right before
/// request N7.
fn old_scratch() -> Vec<Vector> {
    let extract = Call::new(Entry::Extract, B3, &[&P4_WORD, &[7; 9], &[9; 2]]);
    let encode = Call::new(Entry::Encode, B3, &[&[5, 3], &[7; 9], &[1; 9]]);
    let session = fresh(B8);
    let arrive = Call::new(Entry::Arrive, B8, &[&session, &P7_WORD, &[7; 6], &[9; 3]]);
    vec![
        unchanging("P4 extracted, old scratch", extract, Err(Refusal::Length)),
        unchanging("P4, old scratch", encode, Err(Refusal::Length)),
        vector("taken, old scratch", arrive, Ok(0), &[&session, &P7_WORD, &[7; 6], &[2, 2, 0]]),
    ]
}

/// P4 and P7 with places named as gone. In P7's shape 0, 1, 3 and 4 are two rows' and two columns' own:
/// the same number can be added at all four. Position 8 is on none of their checks.
fn dead_cells() -> Vec<Vector> {
    let fill = |shape: Shape, places: &[u32], word: &[u32]| {
        let scratch = vec![7; shape.scratch_len()];
        Call::new(Entry::Fill, shape, &[places, word, &scratch])
    };
    let filled = |name, shape: Shape, places: &[u32], word: &[u32], changed, left: &[u32]| {
        vector(name, fill(shape, places, word), Ok(changed), &[places, left, &vec![0; shape.scratch_len()]])
    };
    let refused = |name, shape: Shape, places: &[u32], word: &[u32], refusal| {
        vector(name, fill(shape, places, word), Err(refusal), &[places, word, &vec![0; shape.scratch_len()]])
    };
    let three_lost = [0, 2, 255, 0, 1, 2, 6, 3, 5];
    let damaged = [5, 2, 7, 3, 1, 2, 6, 3, 4];
    let mut wide = P7_WORD;
    wide[3] = 256;
    let old = Call::new(Entry::Fill, B8, &[&[0], &P7_WORD, &[7; 6]]);
    let short = Call::new(Entry::Fill, B8, &[&[0], &P7_WORD[..8], &[7; 5]]);
    vec![
        filled("P4, no place", B3, &[], &P4_WORD, 0, &P4_WORD),
        refused("P5, no place", B3, &[], &P5_WORD, Refusal::Unfillable),
        filled("P5, its places", B3, &[3, 4], &P5_WORD, 2, &P4_WORD),
        filled("P6, its places", B3, &[3, 4], &P6_WORD, 2, &P4_WORD),
        filled("P6, three places", B3, &[0, 3, 4], &P6_WORD, 2, &P4_WORD),
        refused("P6, one place", B3, &[3], &P6_WORD, Refusal::Unfillable),
        filled("P7, right symbols", B8, &[0, 1, 3], &P7_WORD, 0, &P7_WORD),
        filled("P7, three places", B8, &[0, 2, 3], &three_lost, 3, &P7_WORD),
        refused("P7, two rows and columns", B8, &[0, 1, 3, 4], &P7_WORD, Refusal::Ambiguous),
        refused("P7, two rows and columns, damage", B8, &[0, 1, 3, 4], &damaged, Refusal::Unfillable),
        refused("P7, all places", B8, &[0, 1, 2, 3, 4, 5, 6, 7, 8], &damaged, Refusal::Ambiguous),
        refused("P7, a place twice", B8, &[3, 3], &P7_WORD, Refusal::Places),
        refused("P7, falling places", B8, &[3, 2], &P7_WORD, Refusal::Places),
        refused("P7, place 9", B8, &[3, 9], &P7_WORD, Refusal::Places),
        refused("P7 damaged, place 9", B8, &[9], &damaged, Refusal::Places),
        refused("P7, 256 at a place", B8, &[3], &wide, Refusal::Width),
        refused("P7, 256 and a place twice", B8, &[3, 3], &wide, Refusal::Width),
        unchanging("P7 with places, old scratch", old, Err(Refusal::Length)),
        unchanging("P7 with places, 8 symbols", short, Err(Refusal::Length)),
    ]
}

/// P4 and P7 with places named as gone and damage elsewhere. In P4's shape two wrong symbols are in reach beside one
/// place, one beside three; in P7's one beside one. Position 8 is on no check of 0, 1, 3 and 4.
fn restored() -> Vec<Vector> {
    let restore = |shape: Shape, places: &[u32], word: &[u32]| {
        let scratch = vec![7; shape.scratch_len()];
        Call::new(Entry::Restore, shape, &[places, word, &scratch])
    };
    let restored = |name, shape: Shape, places: &[u32], word: &[u32], changed, left: &[u32]| {
        vector(name, restore(shape, places, word), Ok(changed), &[places, left, &vec![0; shape.scratch_len()]])
    };
    let refused = |name, shape: Shape, places: &[u32], word: &[u32], refusal| {
        vector(name, restore(shape, places, word), Err(refusal), &[places, word, &vec![0; shape.scratch_len()]])
    };
    let damaged = [5, 2, 7, 3, 1, 2, 6, 3, 4];
    let mut wide = P7_WORD;
    wide[3] = 256;
    let old = Call::new(Entry::Restore, B8, &[&[0], &P7_WORD, &[7; 6]]);
    let short = Call::new(Entry::Restore, B8, &[&[0], &P7_WORD[..8], &[7; 5]]);
    vec![
        restored("P4 restored", B3, &[], &P4_WORD, 0, &P4_WORD),
        restored("P6 restored, no place", B3, &[], &P6_WORD, 2, &P4_WORD),
        restored("P6 restored, one of its places", B3, &[3], &P6_WORD, 2, &P4_WORD),
        restored("P6 restored, another place", B3, &[0], &P6_WORD, 2, &P4_WORD),
        restored("P6 restored, three places", B3, &[0, 3, 8], &P6_WORD, 2, &P4_WORD),
        refused("P6 restored, two other places", B3, &[0, 8], &P6_WORD, Refusal::Far),
        restored("P7 restored, one place", B8, &[0], &damaged, 1, &P7_WORD),
        refused("P7 restored, two places", B8, &[0, 1], &damaged, Refusal::Far),
        refused("P7 restored, two rows and columns", B8, &[0, 1, 3, 4], &P7_WORD, Refusal::Ambiguous),
        refused("P7 restored, two rows and columns, damage", B8, &[0, 1, 3, 4], &damaged, Refusal::Far),
        refused("P7 restored, a place twice", B8, &[3, 3], &P7_WORD, Refusal::Places),
        refused("P7 restored, 256 and a place twice", B8, &[3, 3], &wide, Refusal::Width),
        unchanging("P7 restored, old scratch", old, Err(Refusal::Length)),
        unchanging("P7 restored, 8 symbols", short, Err(Refusal::Length)),
    ]
}

fn pages() -> Vec<Vector> {
    let write = |shape: Shape, page: u32, marks: &[u32]| {
        Call::numbered(Entry::WritePage, shape, page, &[marks, &vec![9; shape.data_len()]])
    };
    let read = |shape: Shape, data: &[u32]| Call::new(Entry::ReadPage, shape, &[data]);
    let host = |shape: Shape, data: &[u32]| Call::new(Entry::HostReadPage, shape, &[&to_bytes(data)]);
    vec![
        vector("P7 page", write(B8, 1, &[3, 5]), Ok(0), &[&[3, 5], &[1, 2, 3, 5]]),
        unchanging("P7 page read", read(B8, &[1, 2, 3, 5]), Ok(1026)),
        unchanging("P7 page for the host", host(B8, &[1, 2, 3, 5]), Ok(1026)),
        unchanging("P8", read(B8, &[1, 3, 0, 0]), Err(Refusal::Count)),
        unchanging("P8 for the host", host(B8, &[1, 3, 0, 0]), Err(Refusal::Count)),
        unchanging("P8 written", write(B8, 1, &[0, 0, 0]), Err(Refusal::Count)),
        unchanging("P9", read(B8, &[0, 1, 4, 9]), Err(Refusal::Tail)),
        unchanging("P10 1023", read(B11, &[1023, 0, 0, 0]), Ok(1023 * 1024)),
        unchanging("P10 1024", read(B11, &[1024, 0, 0, 0]), Err(Refusal::Page)),
        vector("P10 1023 written", write(B11, 1023, &[]), Ok(0), &[&[], &[1023, 0, 0, 0]]),
        unchanging("P10 1024 written", write(B11, 1024, &[]), Err(Refusal::Page)),
        unchanging("marks 0 5 read", read(B8, &[2, 2, 0, 5]), Ok(2 * 1024 + 2)),
        unchanging("marks 0 0 for the host", host(B8, &[4, 2, 0, 0]), Ok(4 * 1024 + 2)),
        vector("marks 0 0 written", write(B8, 4, &[0, 0]), Ok(0), &[&[0, 0], &[4, 2, 0, 0]]),
        unchanging("mark 255", read(B9, &[1, 1, 255, 0]), Ok(1025)),
        unchanging("mark 256", read(B9, &[1, 1, 256, 0]), Err(Refusal::Function)),
        vector("mark 255 written", write(B9, 1, &[255]), Ok(0), &[&[255], &[1, 1, 255, 0]]),
        unchanging("mark 256 written", write(B9, 1, &[256]), Err(Refusal::Function)),
    ]
}

/// The words of the program's example, in turn.
fn arrivals() -> Vec<Vector> {
    let session = |taken: bool| {
        let mut session = fresh(B8);
        if taken {
            session[PAGES_AT] = 1;
            session[MARKS_AT + 1] = 1;
            session[CALLS_AT + 3] = 1;
            session[CALLS_AT + 5] = 1;
        }
        session
    };
    let arrive_by = |way: u32, taken: bool, word: &[u32]| {
        Call::numbered(Entry::Arrive, B8, way, &[&session(taken), word, &[7; 5], &[9; 3]])
    };
    let arrive = |taken: bool, word: &[u32]| arrive_by(CLEAN, taken, word);
    let damaged = [12, 2, 7, 3, 1, 2, 6, 3, 5];
    let masked = [1, 0, 0, 0, 1, 0, 0, 0, 0];
    let voted = |word: &[u32]| arrive_by(VOTE, true, word);
    let no_way = |way: u32| arrive_by(way, false, &P7_WORD);
    let fresh = session(false);
    let left: [&[u32]; 4] = [&fresh, &P7_WORD, &[7; 5], &[2, 1, 0]];
    let directions: [&[u32]; 4] = [&fresh, &P7_WORD, &[7; 5], &[2, 16, 0]];
    vec![
        vector(
            "taken by vote",
            arrive_by(VOTE, false, &damaged),
            Ok(0),
            &[&session(true), &P7_WORD, &[0; 5], &[0, 1, 1]],
        ),
        vector("again by vote", voted(&P7_WORD), Ok(0), &[&session(true), &P7_WORD, &[0; 5], &[1, 1, 0]]),
        vector("refused by vote", voted(&masked), Ok(0), &[&session(true), &masked, &[0; 5], &[2, 15, 0]]),
        vector("way 2, two directions", no_way(TWO), Ok(0), &directions),
        vector("way 3", no_way(3), Ok(0), &left),
        vector("way 2^32 - 1", no_way(u32::MAX), Ok(0), &left),
        vector("taken", arrive(false, &P7_WORD), Ok(0), &[&session(true), &P7_WORD, &[0; 5], &[0, 1, 0]]),
        vector("again", arrive(true, &damaged), Ok(0), &[&session(true), &P7_WORD, &[0; 5], &[1, 1, 1]]),
        vector("refused", arrive(true, &masked), Ok(0), &[&session(true), &masked, &[0; 5], &[2, 4, 0]]),
    ]
}

/// Page 5 with no marks, damaged as in P6: the ways compared.
fn masked_page() -> Vec<Vector> {
    let (stored, received) = ([0, 5, 5, 5, 0, 5, 5, 5, 0], [0, 5, 5, 2, 7, 5, 5, 5, 0]);
    let fresh = fresh(B3);
    let mut taken = fresh.clone();
    taken[PAGES_AT] = 1;
    taken[MARKS_AT + 5] = 1;
    let arrive = |way: u32| Call::numbered(Entry::Arrive, B3, way, &[&fresh, &received, &[7; 7], &[9; 3]]);
    vec![
        vector("masked, clean", arrive(CLEAN), Ok(0), &[&fresh, &received, &[0; 7], &[2, 4, 0]]),
        vector("masked, by vote", arrive(VOTE), Ok(0), &[&fresh, &received, &[0; 7], &[2, 15, 0]]),
        vector("masked, two", arrive(TWO), Ok(0), &[&taken, &stored, &[0; 7], &[0, 5, 2]]),
    ]
}

/// Pages with idle marks come to sessions with counts of functions 0 and 5: the former stays as it is,
/// and only the latter can make it 9.
fn idle() -> Vec<Vector> {
    let session = |taken: Option<usize>, idle: u32, calls: u32| {
        let mut session = fresh(B8);
        if let Some(page) = taken {
            session[PAGES_AT] = 1;
            session[MARKS_AT + page] = 1;
        }
        (session[CALLS_AT], session[CALLS_AT + 5]) = (idle, calls);
        session
    };
    let arrive = |session: &[u32], word: &[u32]| Call::new(Entry::Arrive, B8, &[session, word, &[7; 5], &[9; 3]]);
    let mut vectors = vec![];
    for idle in [0, 5, u32::MAX - 1, u32::MAX] {
        let mut test = |name: &str, before: Vec<u32>, word: &[u32], after: Vec<u32>, outcome: [u32; 3]| {
            let name = format!("{name}, {idle} of function 0");
            vectors.push(vector(name, arrive(&before, word), Ok(0), &[&after, word, &[0; 5], &outcome]));
        };
        let before = |calls: u32| session(None, idle, calls);
        let after = |page: usize, calls: u32| session(Some(page), idle, calls);
        test("marks 0 5", before(6), &IDLE_5_WORD, after(2, 7), [0, 2, 0]);
        test("marks 0 5 fill", before(u32::MAX - 1), &IDLE_5_WORD, after(2, u32::MAX), [0, 2, 0]);
        test("marks 0 5 pass", before(u32::MAX), &IDLE_5_WORD, before(u32::MAX), [2, 9, 0]);
        test("marks 0 0", before(6), &IDLE_WORD, after(4, 6), [0, 4, 0]);
        test("marks 0 0 beside a full count", before(u32::MAX), &IDLE_WORD, after(4, u32::MAX), [0, 4, 0]);
        let query = Call::numbered(Entry::Count, B8, 0, &[&session(Some(4), idle, 1)]);
        vectors.push(unchanging(format!("count of function 0, {idle}"), query, Ok(idle)));
    }
    vectors
}

/// Pages 0, 2 and 3 have come, and now P7's, which is page 1: the lowest number goes from 1 to 4.
fn figures() -> Vec<Vector> {
    let session = |pages: u32, lowest: u32| {
        let mut session = fresh(B8);
        (session[PAGES_AT], session[LOWEST_AT]) = (pages, lowest);
        [0, 2, 3].into_iter().for_each(|page| session[MARKS_AT + page] = 1);
        session[CALLS_AT + 5] = 6;
        session
    };
    let scratch = |value: u32| vec![value; B8.scratch_len()];
    let arrive = |session: &[u32]| Call::new(Entry::Arrive, B8, &[session, &P7_WORD, &scratch(7), &[9; 3]]);
    let mut after = session(4, 4);
    after[MARKS_AT + 1] = 1;
    after[CALLS_AT + 3] = 1;
    after[CALLS_AT + 5] = 7;
    let mut vectors =
        vec![vector("figures 3 1", arrive(&session(3, 1)), Ok(0), &[&after, &P7_WORD, &scratch(0), &[0, 1, 0]])];
    for (name, pages, lowest) in
        [("figures 1 3", 1, 3), ("figures 2 1", 2, 1), ("figures 3 0", 3, 0), ("figures 4 4", 4, 4)]
    {
        let session = session(pages, lowest);
        vectors.push(vector(name, arrive(&session), Ok(0), &[&session, &P7_WORD, &scratch(7), &[2, 11, 0]]));
    }
    for (name, pages, function, answer) in [
        ("count, figures 3 1", 3, 5, 6),
        ("count, figures 2 1", 2, 5, (1 << 32) + 11),
        ("count of 256, figures 3 1", 3, 256, (1 << 32) + 7),
        ("count of 256, figures 2 1", 2, 256, (1 << 32) + 11),
    ] {
        let call = Call::numbered(Entry::Count, B8, function, &[&session(pages, 1)]);
        let expected = After { answer, slices: call.slices.clone() };
        vectors.push(Vector { name: name.into(), call, expected });
    }
    vectors
}

fn begin(shape: Shape) -> Call {
    Call::new(Entry::Fresh, shape, &[&[5; SESSION_LEN]])
}

/// A shape that a session can begin with.
fn accepted(name: &str, shape: Shape) -> Vector {
    vector(name, begin(shape), Ok(0), &[&fresh(shape)])
}

fn shapes() -> Vec<Vector> {
    let refused = |name, shape| unchanging(name, begin(shape), Err(Refusal::Shape));
    vec![
        accepted("shape 31 8 32", Shape::new(31, 8, 32)),
        accepted("shape 3 3 1", Shape::new(3, 3, 1)),
        refused("shape 3 4 8", Shape::new(3, 4, 8)),
        refused("shape 31 9 8", Shape::new(31, 9, 8)),
        refused("shape 9 2 8", Shape::new(9, 2, 8)),
        refused("shape 3 2 0", Shape::new(3, 2, 0)),
        refused("shape 3 2 33", Shape::new(3, 2, 33)),
    ]
}

/// The shape with these slopes in front, followed by one that no direction may have.
fn sloped(shape: Shape, first: &[u32]) -> Shape {
    let mut slopes = [u32::MAX; SLOPES];
    slopes[..first.len()].copy_from_slice(first);
    shape.with_slopes(slopes)
}

/// Worked out by hand from P4 and P7. P4's slopes in the other order have its word; with slope 2 in
/// place of 1 the square is mirrored, with slopes 1 and 2 sheared. With P7's symbols and slope 1 only
/// row 0 is another.
fn slopes() -> Vec<Vector> {
    let written = |name, first: &[u32], word: &[u32]| {
        let call = Call::new(Entry::Encode, sloped(B3, first), &[&[5, 3], &[7; 7], &[1; 9]]);
        vector(name, call, Ok(0), &[&[5, 3], &[0; 7], word])
    };
    let decode = |first: &[u32], word: &[u32]| Call::new(Entry::Decode, sloped(B3, first), &[word]);
    let refused = |name, shape| unchanging(name, begin(shape), Err(Refusal::Slope));
    let mirrored = [5, 3, 6, 3, 6, 5, 6, 5, 3];
    let sheared = [6, 5, 3, 6, 5, 3, 6, 5, 3];
    let by_slope_1 = [1, 6, 7, 3, 1, 2, 6, 3, 5];
    let p7 = Call::new(Entry::Encode, sloped(B8, &[1]), &[&[1, 2, 3, 5], &[7; 5], &[1; 9]]);
    vec![
        written("slopes 1 0", &[1, 0], &P4_WORD),
        written("slopes 0 2", &[0, 2], &mirrored),
        written("slopes 2 0", &[2, 0], &mirrored),
        written("slopes 1 2", &[1, 2], &sheared),
        vector("slope 1", p7, Ok(0), &[&[1, 2, 3, 5], &[0; 5], &by_slope_1]),
        vector("slopes 1 2 read", decode(&[1, 2], &[6, 5, 3, 6, 5, 3, 6, 1, 3]), Ok(1), &[&sheared]),
        unchanging("P4 by slopes 1 2", decode(&[1, 2], &P4_WORD), Err(Refusal::Uncorrectable)),
        accepted("shape 3 3 3, slopes 2 1", sloped(B3, &[2, 1])),
        accepted("shape 3 2 8, slope 2 twice", sloped(B8, &[2, 2])),
        refused("shape 3 3 3, slope 2 twice", sloped(B3, &[2, 2])),
        refused("shape 3 3 3, slope 3", sloped(B3, &[0, 3])),
        refused("shape 3 2 8, no slope below 3", sloped(B8, &[])),
    ]
}
