//! Marks of function 0, the idle loop: lawful in a page and counted nowhere. What must come of each call
//! is said here, not asked of the reference, which is held to it like the library.

use super::calls::turned_down;
use super::elsewhere::{after_arrival, any_calls, arriving, begin, marked, plain, readable, some_pages, Come};
use super::every::{Shapes, Widths};
use super::expect::expect;
use crate::call::{After, Call, Entry, Make};
use crate::capture::{counted, most_marks, own_tally, page_numbers, Page};
use crate::random::Random;
use crate::reference::page::{FUNCTIONS, IDLE};
use crate::reference::session::CALLS_AT;
use crate::reference::shape::{Refusal, Shape};
use crate::report::{Group, Unit, Verdict};

/// Counts of function 0 that a session from elsewhere comes with.
const COUNTS: [u32; 5] = [0, 1, 5, u32::MAX - 1, u32::MAX];

/// Word lines of a capture of shape (3, 2, 8), and what the program prints below its first line. Page 2
/// has the marks 0 and 5, page 3 the marks 5 and 0, page 4 nothing but two of idle.
pub const CAPTURES: [(&str, &str); 5] = [
    ("5 2 7 0 2 2 5 0 5\n", "taken 2 0\nfunction calls\n5 1\n"),
    ("5 2 7 0 2 2 5 0 5\n6 4 2 6 4 2 0 0 0\n", "taken 2 0\ntaken 4 0\nfunction calls\n5 1\n"),
    ("4 6 2 1 3 2 5 5 0\n12 2 7 0 2 2 5 0 5\n", "taken 3 0\ntaken 2 1\nfunction calls\n5 2\n"),
    ("6 4 2 6 4 2 0 0 0\n6 4 2 6 4 3 0 0 0\n", "taken 4 0\nagain 4 1\nfunction calls\n"),
    ("6 4 2 6 4 2 0 0 0\n5 2 7 3 1 2 6 3 5\n", "taken 4 0\ntaken 1 0\nfunction calls\n3 1\n5 1\n"),
];

/// A narrow, a middle and a wide one, which are drawn.
const WIDTHS: Widths = |_, random| vec![random.pick(&[1, 2]), random.pick(&[8, 9, 10, 11]), random.pick(&[31, 32])];

/// The group for whichever makes the calls, of all shapes whose pages have marks.
pub fn group(name: String, make: Make) -> Group {
    let mut group = Group::new(name, Unit::Calls);
    let mut shapes = Shapes::new(&mut group, make, WIDTHS).only(|q, n| Shape::new(q, n, 1).most_marks() > 0);
    shapes.test("among others, (q, n)", among_others);
    shapes.test("nothing but idle, (q, n)", nothing_but_idle);
    shapes.test("beside worn counts, (q, n)", beside_worn);
    shapes.test("recordings, (q, n)", recordings);
    group
}

/// The arrival of this page, whose marks are named too where it ends otherwise.
fn expect_page(make: Make, call: &Call, page: &Page, expected: &After) -> Result<(), String> {
    expect(make, call, expected).map_err(|found| format!("marks {:?}: {found}", page.marks))
}

/// A count query of function 0 is answered with this.
fn expect_count(make: Make, shape: Shape, session: &[u32], count: u32) -> Result<(), String> {
    let call = Call::numbered(Entry::Count, shape, IDLE, &[session]);
    let found = make(&call);
    if found.answer == count.into() && found.slices == call.slices {
        Ok(())
    } else {
        Err(format!("{shape:?}: the count of function 0 is {}, expected {count}", found.answer))
    }
}

/// A page number that the width can hold and that has not come, if there is one.
fn new_number(shape: Shape, come: &Come, random: &mut Random) -> Option<u32> {
    let numbers: Vec<u32> = (0..page_numbers(shape) as u32).filter(|number| !come.contains(number)).collect();
    (!numbers.is_empty()).then(|| random.pick(&numbers))
}

/// The arrival of a new page that leaves these counts.
fn taken(call: &Call, page: &Page, weight: u32, come: &Come, calls: &[u32]) -> After {
    let mut come = come.clone();
    come.insert(page.number);
    let session = plain(call.shape, &come, calls);
    let scratch = vec![0; call.shape.scratch_len()];
    let slices = vec![session, page.codeword(call.shape), scratch, vec![0, page.number, weight]];
    After { answer: 0, slices }
}

/// Sessions from elsewhere: each arrival leaves the count of function 0 as it came, a query answers it.
fn among_others(make: Make, shape: Shape, random: &mut Random) -> Verdict {
    let mut tried = 0;
    for count in COUNTS {
        let (mut come, mut calls) = (some_pages(random), any_calls(random));
        calls[0] = count;
        let mut session = marked(shape, &come, &calls, random);
        expect_count(make, shape, &session, count)?;
        for _ in 0..3 {
            let number = random.below(page_numbers(shape)) as u32;
            let page = Page::in_runs(shape, number, random);
            let (call, weight) = readable(shape, &session, &page, random);
            let expected = after_arrival(&call, &page, weight, &mut come);
            expect_page(make, &call, &page, &expected)?;
            session = expected.slices[0].clone();
            expect_count(make, shape, &session, count)?;
            tried += 2;
        }
    }
    Ok(tried)
}

/// Pages of nothing but idle are taken and the figures follow, even where every count is full; a second
/// time they are again.
fn nothing_but_idle(make: Make, shape: Shape, random: &mut Random) -> Verdict {
    let mut tried = 0;
    let most = most_marks(shape);
    for count in COUNTS {
        for length in [1, most, 1 + random.below(most)] {
            let come = some_pages(random);
            let Some(number) = new_number(shape, &come, random) else { continue };
            let page = Page { number, marks: vec![IDLE; length] };
            let mut calls = if random.one_in(2) { any_calls(random) } else { vec![u32::MAX; FUNCTIONS] };
            calls[0] = count;
            let before = marked(shape, &come, &calls, random);
            let (call, weight) = readable(shape, &before, &page, random);
            let after = taken(&call, &page, weight, &come, &calls);
            expect_page(make, &call, &page, &after)?;
            let (call, weight) = readable(shape, &after.slices[0], &page, random);
            let mut again = After { answer: 0, slices: after.slices.clone() };
            again.slices[3] = vec![1, number, weight];
            expect_page(make, &call, &page, &again)?;
            expect_count(make, shape, &after.slices[0], count)?;
            tried += 3;
        }
    }
    Ok(tried)
}

/// Idle marks beside those of a function whose count they just fill, or just pass: only the latter is 9,
/// whatever the count of function 0.
fn beside_worn(make: Make, shape: Shape, random: &mut Random) -> Verdict {
    let mut tried = 0;
    let most = most_marks(shape);
    if most < 2 {
        return Ok(0);
    }
    for count in COUNTS {
        let come = some_pages(random);
        let Some(number) = new_number(shape, &come, random) else { continue };
        let function = counted(shape, random) as usize;
        let times = 1 + random.below((most - 1).min(6));
        let idle = 1 + random.below(most - times);
        let mut marks = [vec![function as u32; times], vec![IDLE; idle]].concat();
        random.shuffle(&mut marks);
        let page = Page { number, marks };
        for left in [times, times - 1, 0] {
            let mut calls = if random.one_in(2) { any_calls(random) } else { vec![u32::MAX; FUNCTIONS] };
            calls[0] = count;
            calls[function] = u32::MAX - left as u32;
            let before = marked(shape, &come, &calls, random);
            let (call, weight) = readable(shape, &before, &page, random);
            let expected = if left == times {
                calls[function] = u32::MAX;
                taken(&call, &page, weight, &come, &calls)
            } else {
                let mut refused = turned_down(&call, Refusal::Overflow);
                refused.slices[2].fill(0);
                refused
            };
            expect_page(make, &call, &page, &expected)?;
            tried += 1;
        }
    }
    Ok(tried)
}

/// Recordings whose marks come in runs, from a fresh session: after each arrival the counts are the plain
/// tally of the pages so far.
fn recordings(make: Make, shape: Shape, random: &mut Random) -> Verdict {
    let (mut session, pages) = begin(make, shape, random);
    let arriving = arriving(&pages, 3, random);
    let mut come = Come::new();
    for &page in &arriving {
        let (call, weight) = readable(shape, &session, page, random);
        expect_page(make, &call, page, &after_arrival(&call, page, weight, &mut come))?;
        session = make(&call).slices.swap_remove(0);
        let so_far = pages.iter().filter(|page| come.contains(&page.number));
        if session[CALLS_AT..] != own_tally(so_far) {
            return Err(format!("{shape:?}: the counts are not the tally of the pages {come:?} of {pages:?}"));
        }
        expect_count(make, shape, &session, 0)?;
    }
    if session[CALLS_AT..] != own_tally(&pages) {
        return Err(format!("{shape:?}: the counts are not the tally of {pages:?}"));
    }
    Ok(2 * arriving.len() as u64)
}
