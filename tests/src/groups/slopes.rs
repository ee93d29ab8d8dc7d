//! Slopes that are refused, when, and slopes that don't count. What must come of each call is said here, not
//! asked of the reference, which is held to it like the library.

use super::calls::{good, later_faults, reshaped, turned_down, ENTRIES};
use super::expect::expect;
use crate::call::{After, Call, Entry, Make};
use crate::random::Random;
use crate::reference::shape::{Refusal, Shape, SHAPE_LEN, SLOPES};
use crate::report::{Group, Unit, Verdict};

/// The group for whichever makes the calls.
pub fn group(name: String, make: Make) -> Group {
    let mut group = Group::new(name, Unit::Calls);
    let mut test = |name: &str, body: fn(Make, Shape, Entry, &mut Random) -> Verdict| {
        group.test_each(name, move |q, n, random| of_each_entry(make, q, n, body, random));
    };
    test("wrong slopes, (q, n)", wrong);
    test("with another fault, (q, n)", with_another_fault);
    test("slopes that don't count, (q, n)", not_counted);
    group
}

/// Once for each entry that has slopes, which are drawn.
fn of_each_entry(
    make: Make,
    q: u32,
    n: u32,
    body: fn(Make, Shape, Entry, &mut Random) -> Verdict,
    random: &mut Random,
) -> Verdict {
    let mut tried = 0;
    for entry in ENTRIES.into_iter().filter(|entry| !entry.is_of_host()) {
        let b = random.pick(&[1, 2, 8, 11, 31, 32]);
        tried += body(make, random.shape(q, n, b), entry, random)?;
    }
    Ok(tried)
}

/// The shape with one slope changed at each place in turn: too large, or that of another place.
fn wrong_slopes(shape: Shape) -> Vec<Shape> {
    let mut shapes = vec![];
    for place in 0..SLOPES {
        let mut change = |slope: u32| {
            let mut slopes = shape.slopes;
            slopes[place] = slope;
            shapes.push(shape.with_slopes(slopes));
        };
        [shape.q, shape.q + 1, 1 << 31, u32::MAX].into_iter().for_each(&mut change);
        let others = shape.own_slopes().iter().enumerate().filter(|(other, _)| *other != place);
        others.for_each(|(_, &slope)| change(slope));
    }
    shapes
}

/// Those of them whose change is at a place that counts.
fn refused_slopes(shape: Shape) -> Vec<Shape> {
    let mut shapes = wrong_slopes(shape);
    shapes.retain(|wrong| wrong.own_slopes() != shape.own_slopes());
    shapes
}

/// Nothing else is wrong: 18 at a place that counts, no effect at another.
fn wrong(make: Make, shape: Shape, entry: Entry, random: &mut Random) -> Verdict {
    let call = good(entry, shape, random);
    let right = make(&call);
    let shapes = wrong_slopes(shape);
    for &wrong in &shapes {
        let call = reshaped(&call, wrong);
        let expected = if wrong.own_slopes() == shape.own_slopes() {
            with_slopes_of(right.clone(), &call)
        } else {
            turned_down(&call, Refusal::Slope)
        };
        expect(make, &call, &expected)?;
    }
    Ok(shapes.len() as u64)
}

/// A wrong slope beside something else: 1 comes before it, everything else after.
fn with_another_fault(make: Make, shape: Shape, entry: Entry, random: &mut Random) -> Verdict {
    let mut tried = 0;
    let call = good(entry, shape, random);
    for wrong in refused_slopes(shape) {
        for (q, n, b) in [(9, shape.n, shape.b), (shape.q, 9, shape.b), (shape.q, 1, shape.b), (shape.q, shape.n, 33)] {
            let call = reshaped(&call, Shape { q, n, b, ..wrong });
            expect(make, &call, &turned_down(&call, Refusal::Shape))?;
            tried += 1;
        }
        for call in later_faults(&reshaped(&call, wrong), random) {
            expect(make, &call, &turned_down(&call, Refusal::Slope))?;
            tried += 1;
        }
    }
    Ok(tried)
}

/// Shapes that agree on what counts: same answers, same words.
fn not_counted(make: Make, shape: Shape, entry: Entry, random: &mut Random) -> Verdict {
    let rounds = 4;
    for _ in 0..rounds {
        let mut call = good(entry, shape, random);
        if random.one_in(2) {
            // A refusal too must be the same.
            let mut faults = later_faults(&call, random);
            call = faults.swap_remove(random.below(faults.len()));
        }
        let right = make(&call);
        let call = reshaped(&call, random.other_slopes(shape));
        expect(make, &call, &with_slopes_of(right, &call))?;
    }
    Ok(rounds)
}

/// A session keeps all slopes as they were lent, and a fresh one has those of its shape.
fn with_slopes_of(mut after: After, call: &Call) -> After {
    let holds_shape = call.entry.takes_session() || call.entry == Entry::Fresh && after.answer == 0;
    if holds_shape {
        after.slices[0][..SHAPE_LEN].copy_from_slice(&call.shape.values());
    }
    after
}
