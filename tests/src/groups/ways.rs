//! The ways of reading that an arrival names. What must come of each call is said here, not asked of the
//! reference, which is held to it like the library.

use super::calls::{bad_slope, good, later_faults, reshaped, turned_down};
use super::elsewhere::{after_arrival, any_calls, arrival, fresh, plain, Come};
use super::every::Shapes;
use super::expect::expect;
use crate::call::{Call, Entry, Make};
use crate::capture::{own_tally, recording, Page};
use crate::damage::{allowed, any_line, Error};
use crate::random::Random;
use crate::reference::session::{ways_of, CALLS_AT, TWO, VOTE, WAYS};
use crate::reference::shape::{Refusal, Shape};
use crate::report::{Group, Unit, Verdict};

/// Numbers that name no way.
const NONE: [u32; 7] = [WAYS, WAYS + 1, 255, 256, 1 << 16, 1 << 31, u32::MAX];

/// The group for whichever makes the calls.
pub fn group(name: String, make: Make) -> Group {
    let mut group = Group::new(name, Unit::Calls);
    let mut shapes = Shapes::new(&mut group, make, |_, _| vec![1, 8, 11, 32]);
    shapes.test("that are none, (q, n)", that_are_none);
    shapes.test("mixed, (q, n)", mixed);
    shapes.only(|_, n| n == 2).test("two directions, (q, n)", two_directions);
    let mut shapes = Shapes::new(&mut group, make, |_, _| vec![1, 8, 32]);
    shapes.test("stripes, (q, n)", stripes);
    shapes.only(|_, n| n > 2).test("pairs, (q, n)", pairs);
    group
}

/// A number that names no way is 1, whatever else is wrong: bad shapes and slopes, figures that
/// disagree, lengths, symbols.
fn that_are_none(make: Make, shape: Shape, random: &mut Random) -> Verdict {
    let mut tried = 0;
    let entry = random.pick(&[Entry::Arrive, Entry::Batch]);
    let call = good(entry, shape, random);
    let mut calls = later_faults(&call, random);
    for other in [Shape { q: 9, ..shape }, Shape { n: 9, ..shape }, bad_slope(shape, shape, random)] {
        calls.push(reshaped(&call, other));
    }
    calls.push(call);
    let any = WAYS + (random.number() % (u32::MAX - WAYS));
    for call in calls {
        for way in NONE.into_iter().chain([any]) {
            let call = Call { number: way, ..call.clone() };
            expect(make, &call, &turned_down(&call, Refusal::Shape))?;
            tried += 1;
        }
    }
    Ok(tried)
}

/// The pages of a recording some times each, in any order, each arrival by any way with damage that this
/// way allows: the answers are those of a plain set of pages, and the counts the recording's own.
fn mixed(make: Make, shape: Shape, random: &mut Random) -> Verdict {
    let mut tried = 0;
    let pages = recording(shape, 8, random);
    let mut list: Vec<&Page> = pages.iter().flat_map(|page| vec![page; WAYS as usize]).collect();
    random.shuffle(&mut list);
    list.extend(&pages);
    let mut come = Come::new();
    let mut state = fresh(shape);
    for page in list {
        let way = random.below(ways_of(shape) as usize) as u32;
        let error = allowed(way, shape, random);
        let call = arrival(way, shape, &state, &page.damaged(shape, &error), random);
        let after = after_arrival(&call, page, error.len() as u32, &mut come);
        expect(make, &call, &after)?;
        state.copy_from_slice(&after.slices[0]);
        tried += 1;
    }
    if state[CALLS_AT..] != own_tally(&pages) {
        return Err(format!("{shape:?}: the counts are not the recording's"));
    }
    Ok(tried)
}

/// Equal damage to these symbols of a page: this way undoes it.
fn expect_undone(make: Make, way: u32, shape: Shape, places: &[usize], random: &mut Random) -> Result<(), String> {
    let symbol = random.nonzero_symbol(shape);
    let error: Error = places.iter().map(|&j| (j, symbol)).collect();
    let page = Page::any(shape, random);
    let mut come = Come::new();
    let state = plain(shape, &come, &any_calls(random));
    let call = arrival(way, shape, &state, &page.damaged(shape, &error), random);
    expect(make, &call, &after_arrival(&call, &page, places.len() as u32, &mut come))
}

/// Equal damage to the first symbols of a line, of each direction: up to n/2 the vote undoes it.
fn stripes(make: Make, shape: Shape, random: &mut Random) -> Verdict {
    let mut tried = 0;
    for t in 0..shape.n as usize {
        let line = any_line(shape, t, random);
        for length in 1..=shape.most_votes() {
            expect_undone(make, VOTE, shape, &line[..length], random)?;
            tried += 1;
        }
    }
    Ok(tried)
}

/// Equal damage to two symbols of a line, of each direction, which cancels there: way 2 undoes it.
fn pairs(make: Make, shape: Shape, random: &mut Random) -> Verdict {
    for t in 0..shape.n as usize {
        let mut line = any_line(shape, t, random);
        random.shuffle(&mut line);
        expect_undone(make, TWO, shape, &line[..2], random)?;
    }
    Ok(shape.n.into())
}

/// With two directions way 2 is 16, whatever the word and the lengths: after 1, 18 and 11, before 2.
fn two_directions(make: Make, shape: Shape, random: &mut Random) -> Verdict {
    let mut tried = 0;
    let entry = random.pick(&[Entry::Arrive, Entry::Batch]);
    let call = Call { number: TWO, ..good(entry, shape, random) };
    let mut calls = later_faults(&call, random);
    calls.push(call.clone());
    for fault in &calls {
        let agrees = fault.slices[0] == call.slices[0];
        let refusal = if agrees { Refusal::Directions } else { Refusal::Figures };
        expect(make, fault, &turned_down(fault, refusal))?;
        let lawless = [(Shape { b: 33, ..shape }, Refusal::Shape), (bad_slope(shape, shape, random), Refusal::Slope)];
        for (other, refusal) in lawless {
            let call = reshaped(fault, other);
            expect(make, &call, &turned_down(&call, refusal))?;
        }
        tried += 3;
    }
    Ok(tried)
}
