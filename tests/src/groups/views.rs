//! Shapes and sessions of the crate: which ones it lets through, and what it shows of them without an entry's call.

use super::calls::bad_slope;
use super::elsewhere::any_session;
use super::refusals::shape_numbers;
use crate::library::shape_in;
use crate::random::Random;
use crate::reference::page::PAGES;
use crate::reference::session::{Session, LOWEST_AT, MARKS_AT, PAGES_AT};
use crate::reference::shape::{Shape, SLOPES};
use crate::report::{Group, Unit, Verdict};

pub fn group() -> Group {
    let mut group = Group::new("shapes and sessions", Unit::Calls);
    group.test("shapes of any numbers", shapes);
    group.test_shapes("slopes of (q, n)", |_, random| vec![1 + random.below(32) as u32], slopes);
    group.test_shapes("sessions of (q, n)", |_, _| vec![1, 8, 32], sessions);
    group
}

fn shapes(random: &mut Random) -> Verdict {
    let mut tried = 0;
    for q in shape_numbers(40) {
        for n in shape_numbers(10) {
            for b in shape_numbers(34) {
                let shape = Shape::new(q, n, b);
                for shape in [shape, shape.with_slopes([random.pick(&[1, 31, q, u32::MAX]); SLOPES])] {
                    expect_shape(shape)?;
                    tried += 1;
                }
            }
        }
    }
    Ok(tried)
}

fn slopes(shape: Shape, random: &mut Random) -> Verdict {
    let rounds = 20;
    for _ in 0..rounds {
        expect_shape(random.other_slopes(shape))?;
        expect_shape(bad_slope(shape, shape, random))?;
    }
    Ok(2 * rounds)
}

/// The crate lets a shape through exactly if it is lawful. Its lengths are 0 where it is not.
fn expect_shape(shape: Shape) -> Result<(), String> {
    let values = shape.values();
    let found = shaftglimmer::Shape::from_values(values).map(|shape| shape.to_values());
    if found.map_err(|refusal| refusal.number()) != shape.judge().map(|()| values).map_err(|refusal| refusal.number()) {
        return Err(format!("{shape:?} is {found:?}"));
    }
    let crossing = shape_in(&values);
    let lengths = [crossing.word_length(), crossing.data_length(), crossing.scratch_length()];
    let right = if shape.lawful() { [shape.word_len(), shape.data_len(), shape.scratch_len()] } else { [0; 3] };
    if lengths != right {
        return Err(format!("{shape:?} has the lengths {lengths:?}, expected {right:?}"));
    }
    Ok(())
}

/// Sessions with anything in them, one in three with a figure, a mark, a slope or a width that can't be.
fn sessions(shape: Shape, random: &mut Random) -> Verdict {
    let rounds = 12;
    for _ in 0..rounds {
        let mut values = any_session(shape, random);
        if random.one_in(3) {
            let page = MARKS_AT + random.below(PAGES);
            let at = random.pick(&[0, 2, 3, PAGES_AT, LOWEST_AT, page]);
            values[at] = random.pick(&[0, 1, 33, u32::MAX]);
        }
        expect_session(&values)?;
    }
    Ok(rounds)
}

/// The crate lets a session through exactly if the reference answers a count of it, and then shows all of it.
fn expect_session(values: &[u32]) -> Result<(), String> {
    let reference = Session::from_values(values);
    let lent = values.try_into().expect("a session's length");
    let session = match (shaftglimmer::Session::from_values(lent), reference.count(0)) {
        (Ok(session), Ok(_)) => session,
        (Err(found), Err(expected)) if found.number() == expected.number() => return Ok(()),
        (found, expected) => return Err(format!("{values:?} is let through as {found:?}, expected {expected:?}")),
    };
    let missing: Vec<u32> = (0..PAGES as u32).filter(|&page| !reference.taken[page as usize]).collect();
    let tally = reference.calls.iter().zip(0..).filter(|(&calls, _)| calls > 0);
    let tally: Vec<(u8, u32)> = tally.map(|(&calls, function)| (function, calls)).collect();
    let shown = [
        session.to_values() == values,
        session.shape().to_values() == reference.shape.values(),
        [session.pages(), session.lowest()] == [reference.figures.pages, reference.figures.lowest],
        session.missing().eq(missing),
        (0..PAGES).all(|page| session.has_taken(page as u32) == reference.taken[page]),
        !session.has_taken(PAGES as u32) && !session.has_taken(u32::MAX),
        *session.calls() == reference.calls,
        session.tally().eq(tally),
    ];
    match shown.iter().position(|&right| !right) {
        Some(i) => Err(format!("{values:?}: the crate shows it otherwise, {i}")),
        None => Ok(()),
    }
}
