//! The two figures beside the page marks: in sessions from elsewhere, where they agree and where not,
//! and in sessions grown from a fresh one. What must come of each call is said here, by a plain set of
//! page numbers, not asked of the reference, which is held to it like the library.

use super::calls::{bad_slope, good, later_faults, reshaped, turned_down};
use super::elsewhere::{
    after_arrival, any_calls, any_marks, figures, fresh, lowest_missing, plain_marks, readable, session, wrong_figures,
    Come, ALL,
};
use super::every::{Shapes, Widths};
use super::expect::expect;
use crate::call::{After, Call, Entry, Make};
use crate::capture::{page_numbers, Page};
use crate::damage::{make, Style};
use crate::random::Random;
use crate::reference::page::PAGES;
use crate::reference::session::{CALLS_AT, MARKS_AT, PAGES_AT, SESSION_LEN};
use crate::reference::shape::{Refusal, Shape};
use crate::reference::writer::codeword;
use crate::report::{Group, Unit, Verdict};

/// One that is drawn.
const ANY_WIDTH: Widths = |_, random| vec![random.pick(&[1, 2, 8, 10, 11, 31, 32])];

/// The group for whichever makes the calls.
pub fn group(name: String, make: Make) -> Group {
    let mut group = Group::new(name, Unit::Calls);
    group.test_each("that disagree, (q, n)", move |q, n, random| disagreeing(make, q, n, random));
    Shapes::new(&mut group, make, ANY_WIDTH).test("with another fault, (q, n)", with_another_fault);
    group.test_each("that agree, (q, n)", move |q, n, random| agreeing(make, q, n, random));
    for order in ORDERS {
        let widths = |_, random: &mut Random| vec![random.pick(&[3, 8, 11, 32])];
        let some = [(3, 2, 10), (3, 2, 32), (3, 3, 16), (5, 3, 11)];
        group.test_shapes(&format!("grown, {order:?}, (q, n)"), widths, move |shape, random| {
            grown(make, shape, 24, order, random)
        });
        group.test_drawn(&format!("all pages, {order:?}, (q, n, b)"), &some, 1, move |shape, random| {
            grown(make, shape, PAGES, order, random)
        });
    }
    group
}

/// Sets of pages from none to all: single ones, all but single ones, runs, runs with holes, any.
fn sets(random: &mut Random) -> Vec<Come> {
    let any = random.below(PAGES) as u32;
    let mut sets = vec![Come::new(), (0..ALL).collect()];
    for page in [0, 1, 2, 511, ALL - 1, any] {
        sets.push(Come::from([page]));
        sets.push((0..ALL).filter(|&other| other != page).collect());
        sets.push((0..page).collect());
        sets.push((page..ALL).collect());
    }
    for step in [2, 3, 8] {
        sets.push((0..ALL).filter(|page| page % step == 0).collect());
        sets.push((0..ALL).filter(|page| page % step != 0).collect());
    }
    for most in [any, ALL] {
        sets.push((0..most).filter(|_| random.one_in(2)).collect());
        sets.push((0..most).filter(|_| random.one_in(16)).collect());
        sets.push((0..most).filter(|_| !random.one_in(16)).collect());
    }
    sets
}

/// What a session may have in which these pages have come: shape, marks and counts.
fn parts(q: u32, n: u32, come: &Come, random: &mut Random) -> (Shape, Vec<u32>, Vec<u32>) {
    let b = ANY_WIDTH(q, random)[0];
    let (shape, calls) = (random.shape(q, n, b), any_calls(random));
    let marks = if random.one_in(2) { plain_marks(come) } else { any_marks(come, random) };
    (shape, marks, calls)
}

/// Calls of every entry that takes a session, with this one.
fn calls_with(session: &[u32], shape: Shape, random: &mut Random) -> [Call; 5] {
    [Entry::Count, Entry::Bill, Entry::Cover, Entry::Arrive, Entry::Batch]
        .map(|entry| good(entry, shape, random).with_slice(0, session.to_vec()))
}

/// Nothing else is wrong: 11, and all is as lent, the scratch too.
fn disagreeing(make: Make, q: u32, n: u32, random: &mut Random) -> Verdict {
    let mut tried = 0;
    for come in sets(random) {
        let (shape, marks, calls) = parts(q, n, &come, random);
        let lent = calls_with(&session(shape, figures(&come), &marks, &calls), shape, random);
        for [pages, lowest] in wrong_figures(&come, &marks) {
            for mut call in lent.clone() {
                call.slices[0][PAGES_AT..MARKS_AT].copy_from_slice(&[pages, lowest]);
                expect(make, &call, &turned_down(&call, Refusal::Figures))?;
                tried += 1;
            }
        }
    }
    Ok(tried)
}

/// Wrong figures beside something else: 1 and 18 come before them, everything else after.
fn with_another_fault(make: Make, shape: Shape, random: &mut Random) -> Verdict {
    let mut tried = 0;
    for come in sets(random) {
        let marks = any_marks(&come, random);
        let wrong = random.pick(&wrong_figures(&come, &marks));
        for call in calls_with(&session(shape, wrong, &marks, &any_calls(random)), shape, random) {
            let mut cases = vec![];
            for unlawful in [Shape { q: 9, ..shape }, Shape { n: 9, ..shape }, Shape { b: 33, ..shape }] {
                cases.push((reshaped(&call, unlawful), Refusal::Shape));
                cases.push((reshaped(&call, bad_slope(unlawful, shape, random)), Refusal::Shape));
            }
            cases.push((reshaped(&call, bad_slope(shape, shape, random)), Refusal::Slope));
            cases.extend(later_faults(&call, random).into_iter().map(|call| (call, Refusal::Figures)));
            for (call, refusal) in cases {
                expect(make, &call, &turned_down(&call, refusal))?;
                tried += 1;
            }
        }
    }
    Ok(tried)
}

/// Right figures: a count query is answered, a page that has come is again, another is taken and the
/// figures follow, unless a count is full. The lowest page not taken comes too, whatever is taken next to it.
fn agreeing(make: Make, q: u32, n: u32, random: &mut Random) -> Verdict {
    let mut tried = 0;
    for come in sets(random) {
        let (shape, marks, calls) = parts(q, n, &come, random);
        let session = session(shape, figures(&come), &marks, &calls);
        for function in [0, 255, 256, random.below(300) as u32, u32::MAX] {
            let call = Call::numbered(Entry::Count, shape, function, &[&session]);
            let mut expected = turned_down(&call, Refusal::Function);
            if let Some(&calls) = calls.get(function as usize) {
                expected.answer = calls.into();
            }
            expect(make, &call, &expected)?;
            tried += 1;
        }
        let any = random.below(page_numbers(shape)) as u32;
        let numbers = [lowest_missing(&come), 0, come.last().copied().unwrap_or(0), any];
        for number in numbers.into_iter().filter(|&number| (number as usize) < page_numbers(shape)) {
            let page = Page::random(shape, number, random);
            let (call, weight) = readable(shape, &session, &page, random);
            expect(make, &call, &after_arrival(&call, &page, weight, &mut come.clone()))?;
            tried += 1;
            let last = page.calls().next_back();
            if let Some(function) = last.filter(|_| !come.contains(&number)) {
                let mut worn = call.clone();
                worn.slices[0][CALLS_AT + function] = u32::MAX;
                let mut expected = turned_down(&worn, Refusal::Overflow);
                expected.slices[2].fill(0);
                expect(make, &worn, &expected)?;
                tried += 1;
            }
        }
    }
    Ok(tried)
}

/// In which order the pages of a recording come.
#[derive(Clone, Copy, Debug)]
enum Order {
    Rising,
    Falling,
    Shuffled,
    /// All but every eighth, then these: each makes the lowest number jump.
    Holes,
}

const ORDERS: [Order; 4] = [Order::Rising, Order::Falling, Order::Shuffled, Order::Holes];

fn numbers(order: Order, count: u32, random: &mut Random) -> Vec<u32> {
    let mut numbers: Vec<u32> = (0..count).collect();
    match order {
        Order::Rising => {}
        Order::Falling => numbers.reverse(),
        Order::Shuffled => random.shuffle(&mut numbers),
        Order::Holes => numbers.sort_by_key(|number| number % 8 == 0),
    }
    numbers
}

/// The first pages come to a fresh session, some of them again later, refused words between. After each
/// arrival the session is what the pages say that have come; 11 never comes.
fn grown(make: Make, shape: Shape, count: usize, order: Order, random: &mut Random) -> Verdict {
    let call = Call::new(Entry::Fresh, shape, &[&random.numbers(SESSION_LEN)]);
    let (mut session, mut come, mut pages, mut tried) = (fresh(shape), Come::new(), vec![], 1);
    expect(make, &call, &After { answer: 0, slices: vec![session.clone()] })?;
    for number in numbers(order, count.min(page_numbers(shape)) as u32, random) {
        pages.push(Page::random(shape, number, random));
        let repeats = random.below(3);
        let arriving = (0..=repeats).map(|i| if i == 0 { pages.len() - 1 } else { random.below(pages.len()) });
        for i in arriving.collect::<Vec<usize>>() {
            let (call, weight) = readable(shape, &session, &pages[i], random);
            let expected = after_arrival(&call, &pages[i], weight, &mut come);
            expect(make, &call, &expected)?;
            session = expected.slices[0].clone();
        }
        let (function, calls) = (number % 256, session[CALLS_AT + number as usize % 256]);
        let query = Call::numbered(Entry::Count, shape, function, &[&session]);
        expect(make, &query, &After { answer: calls.into(), slices: query.slices.clone() })?;
        let refused = refused(shape, &session, &pages[pages.len() - 1], random);
        let after = make(&refused);
        let [kind, refusal, _] = after.slices[3][..] else { return Err("an outcome of another length".into()) };
        if kind != 2 || refusal == Refusal::Figures.number() || after.slices[0] != session {
            return Err(format!("{shape:?}, pages {come:?}: a word to be refused has {kind} {refusal}"));
        }
        tried += 3 + repeats as u64;
    }
    let expected = figures(&(0..count.min(page_numbers(shape)) as u32).collect());
    let found = &session[PAGES_AT..MARKS_AT];
    if found != expected {
        return Err(format!("{shape:?}: the last figures are {found:?}, expected {expected:?}"));
    }
    Ok(tried)
}

/// The arrival of a word that nothing can be made of: a wrong length, a wide symbol, a page with
/// something wrong, or two equal errors on one check, where the width has room for it.
fn refused(shape: Shape, session: &[u32], page: &Page, random: &mut Random) -> Call {
    let (mut call, _) = readable(shape, session, page, random);
    let most = shape.most_marks() as u32;
    let mut data = page.symbols(shape);
    let last = data.len() - 1;
    match random.below(8) {
        0 => call.slices[1].push(0),
        1 => call.slices[2].push(0),
        2 => call.slices[2].truncate(1),
        3 if shape.b < 32 => call.slices[1][0] = shape.largest() + 1,
        4 if shape.b > 10 => {
            data[0] = ALL;
            call.slices[1] = codeword(shape, &data);
        }
        5 if shape.largest() > most => {
            data[1] = most + 1;
            call.slices[1] = codeword(shape, &data);
        }
        6 if page.marks.len() < most as usize => {
            data[last] = 1;
            call.slices[1] = codeword(shape, &data);
        }
        7 => call.slices[1] = page.damaged(shape, &make(Style::Masked, shape, 2, random)),
        _ => call.slices[1].truncate(1),
    }
    call
}
