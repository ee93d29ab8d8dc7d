//! Bills: sums around what a u64 holds and around whole picojoules, price lists of wrong length, sessions
//! from elsewhere, recordings. What must come of each call is said here, not asked of the reference, which
//! is held to it like the library.

use super::calls::{choices, reshaped, spoiled, turned_down, with_length};
use super::elsewhere::{
    any_calls, any_marks, arriving, begin, figures, marked, readable, session, some_pages, wrong_figures,
};
use super::every::{Shapes, ONE_WIDTH};
use super::expect::expect;
use crate::call::{After, Call, Entry, Make};
use crate::capture::{own_tally, Page};
use crate::random::Random;
use crate::reference::page::FUNCTIONS;
use crate::reference::session::{MARKS_AT, PAGES_AT, SESSION_LEN};
use crate::reference::shape::{Refusal, Shape};
use crate::report::{Group, Unit, Verdict};

/// The largest sum that is billed.
const MOST: u128 = u64::MAX as u128;

/// Sums of thousandths on both sides of every border.
const SUMS: [u128; 28] = [
    0,
    1,
    2,
    998,
    999,
    1000,
    1001,
    1999,
    2000,
    2001,
    254_999,
    255_000,
    255_001,
    u32::MAX as u128,
    u32::MAX as u128 + 1,
    MOST / 2,
    MOST - 1616,
    MOST - 1000,
    MOST - 616,
    MOST - 615,
    MOST - 614,
    MOST - 1,
    MOST,
    MOST + 1,
    MOST + 2,
    MOST + 1000,
    2 * MOST + 2,
    3 * MOST,
];

/// The group for whichever makes the calls.
pub fn group(name: String, make: Make) -> Group {
    let mut group = Group::new(name, Unit::Calls);
    let mut shapes = Shapes::new(&mut group, make, ONE_WIDTH);
    shapes.test("sums, (q, n)", sums);
    shapes.test("single functions, (q, n)", single_functions);
    shapes.test("any counts and prices, (q, n)", any_sums);
    shapes.test("lengths, (q, n)", lengths);
    shapes.test("several faults, (q, n)", several_faults);
    shapes.test("recordings, (q, n)", recordings);
    group
}

/// The number that a sum of thousandths is answered with.
fn answer(sum: u128) -> u64 {
    if sum > MOST {
        return (1 << 63) + u64::from(Refusal::Bill.number());
    }
    ((sum + 999) / 1000) as u64
}

/// The sum over all functions but 0.
fn sum_of(calls: &[u32], prices: &[u32]) -> u128 {
    calls[1..].iter().zip(&prices[1..]).map(|(&calls, &price)| u128::from(calls) * u128::from(price)).sum()
}

/// A call with these counts and prices, of a session from elsewhere.
fn bill(shape: Shape, calls: &[u32], prices: &[u32], random: &mut Random) -> Call {
    let come = some_pages(random);
    let session = marked(shape, &come, calls, random);
    Call::new(Entry::Bill, shape, &[&session, prices])
}

/// This answer, and session and prices as lent.
fn expect_answer(make: Make, call: &Call, answer: u64) -> Result<(), String> {
    expect(make, call, &After { answer, slices: call.slices.clone() })
}

/// Counts and prices of some functions from 1 on that cost this much together; function 0 has anything.
fn costing(mut sum: u128, random: &mut Random) -> (Vec<u32>, Vec<u32>) {
    let (mut calls, mut prices) = (vec![0; FUNCTIONS], vec![0; FUNCTIONS]);
    let mut functions: Vec<usize> = (1..FUNCTIONS).collect();
    random.shuffle(&mut functions);
    for function in functions {
        let largest = u128::from(random.pick(&[1, 1000, 1 << 31, u32::MAX, u32::MAX, u32::MAX]));
        let many = largest.min(sum) as u32;
        let (one, other) = match many {
            0 => random.pick(&[(0, u32::MAX), (0, 1), (0, 0)]),
            _ => (many, (sum / u128::from(many)).min(u32::MAX.into()) as u32),
        };
        sum -= u128::from(one) * u128::from(other);
        (calls[function], prices[function]) = if random.one_in(2) { (one, other) } else { (other, one) };
    }
    assert!(sum == 0, "a sum that 255 functions cannot cost");
    calls[0] = random.pick(&[0, 1, 1000, u32::MAX]);
    prices[0] = random.pick(&[0, 1, 1000, u32::MAX]);
    (calls, prices)
}

/// Every sum of the list, spread over the functions in many ways.
fn sums(make: Make, shape: Shape, random: &mut Random) -> Verdict {
    let mut tried = 0;
    for sum in SUMS {
        for _ in 0..3 {
            let (calls, prices) = costing(sum, random);
            expect_answer(make, &bill(shape, &calls, &prices, random), answer(sum))?;
            tried += 1;
        }
    }
    Ok(tried)
}

/// One function has all calls: 0 costs nothing whatever its price; of each other one the price counts.
fn single_functions(make: Make, shape: Shape, random: &mut Random) -> Verdict {
    let mut tried = 0;
    for function in [0, 1, 2, 127, 128, 254, 255, random.below(FUNCTIONS)] {
        for (count, price) in [(1, 1), (1, 1000), (999, 1), (1001, 1), (3, 667), (u32::MAX, u32::MAX)] {
            let (mut calls, mut prices) = (vec![0; FUNCTIONS], random.numbers(FUNCTIONS));
            (calls[function], prices[function]) = (count, price);
            let sum = if function == 0 { 0 } else { u128::from(count) * u128::from(price) };
            expect_answer(make, &bill(shape, &calls, &prices, random), answer(sum))?;
            tried += 1;
        }
    }
    Ok(tried)
}

/// Any counts and prices: small ones, whose rounding shows, and such as pass the limit in the middle.
fn any_sums(make: Make, shape: Shape, random: &mut Random) -> Verdict {
    let rounds = 40;
    for _ in 0..rounds {
        let (few, low) = (random.below(32), random.below(32));
        let calls: Vec<u32> = (0..FUNCTIONS).map(|_| random.number() >> few).collect();
        let prices: Vec<u32> = (0..FUNCTIONS).map(|_| random.number() >> low).collect();
        expect_answer(make, &bill(shape, &calls, &prices, random), answer(sum_of(&calls, &prices)))?;
    }
    Ok(rounds)
}

/// 255 prices, 257 and others: 2, also where the sum would be too large.
fn lengths(make: Make, shape: Shape, random: &mut Random) -> Verdict {
    let mut tried = 0;
    let refused = (1 << 63) + u64::from(Refusal::Length.number());
    for count in [1, u32::MAX] {
        let call = bill(shape, &[count; FUNCTIONS], &[u32::MAX; FUNCTIONS], random);
        for length in [0, 1, 255, 257, 512, SESSION_LEN] {
            let mut call = call.clone();
            call.slices[1].resize(length, u32::MAX);
            expect_answer(make, &call, refused)?;
            tried += 1;
        }
    }
    Ok(tried)
}

/// The tests in their order.
const ORDER: [Refusal; 5] = [Refusal::Shape, Refusal::Slope, Refusal::Figures, Refusal::Length, Refusal::Bill];

/// Every choice of faults: the first in order is the answer.
fn several_faults(make: Make, shape: Shape, random: &mut Random) -> Verdict {
    let mut tried = 0;
    for faults in choices(&ORDER) {
        let has = |refusal: Refusal| faults.contains(&refusal);
        let sum = if has(Refusal::Bill) { MOST + 1 } else { MOST };
        let (calls, prices) = costing(sum, random);
        let come = some_pages(random);
        let marks = any_marks(&come, random);
        let wrong = random.pick(&wrong_figures(&come, &marks));
        let mut call = Call::new(Entry::Bill, shape, &[&session(shape, figures(&come), &marks, &calls), &prices]);
        if has(Refusal::Length) {
            let length = random.pick(&[0, 255, 257]);
            call = with_length(&call, 1, length, random);
        }
        if has(Refusal::Figures) {
            call.slices[0][PAGES_AT..MARKS_AT].copy_from_slice(&wrong);
        }
        let call = reshaped(&call, spoiled(shape, &faults, random));
        match faults.first() {
            Some(&refusal) => expect_answer(make, &call, turned_down(&call, refusal).answer)?,
            None => expect_answer(make, &call, answer(sum))?,
        }
        tried += 1;
    }
    Ok(tried)
}

/// From a fresh session on: after each arrival the bill is that of the pages so far, at the end the
/// recording's own.
fn recordings(make: Make, shape: Shape, random: &mut Random) -> Verdict {
    let (mut session, pages) = begin(make, shape, random);
    let prices: Vec<u32> = any_calls(random);
    let arriving = arriving(&pages, 2, random);
    let mut come: Vec<&Page> = vec![];
    for &page in &arriving {
        let (call, _) = readable(shape, &session, page, random);
        session = make(&call).slices.swap_remove(0);
        if !come.iter().any(|other| other.number == page.number) {
            come.push(page);
        }
        let sum = sum_of(&own_tally(come.iter().copied()), &prices);
        expect_answer(make, &Call::new(Entry::Bill, shape, &[&session, &prices]), answer(sum))?;
    }
    let sum = sum_of(&own_tally(&pages), &prices);
    expect_answer(make, &Call::new(Entry::Bill, shape, &[&session, &prices]), answer(sum))?;
    Ok(arriving.len() as u64 + 1)
}
