//! What is turned down: shapes, lengths, widths, and several faults at once, of every entry. Each
//! call is compared whole, so that the lent slices and the scratch are too. Slopes alone are the
//! matter of another group.

use super::calls::{good, old_scratch_len, reshape, reshaped, with_length, ENTRIES};
use super::expect::expect_reference;
use crate::call::{answer_of, to_bytes, Call, Entry};
use crate::random::Random;
use crate::reference::page::PAGES;
use crate::reference::session::{CALLS_AT, LOWEST_AT, MARKS_AT, PAGES_AT};
use crate::reference::shape::{Refusal, Shape, SLOPES};
use crate::report::{Group, Unit, Verdict};

pub fn group() -> Group {
    let mut group = Group::new("refusals", Unit::Calls);
    for entry in ENTRIES {
        group.test(format!("shapes, {entry:?}"), move |random| shapes(entry, random));
    }
    group.test_each("lengths of (q, n)", lengths);
    group.test_each("scratch of (q, n)", scratch_lengths);
    group.test_each("widths of (q, n)", widths);
    group.test_each("several faults, (q, n)", several_faults);
    for (q, n) in [(3, 2), (3, 3), (5, 2), (7, 7)] {
        group.test(format!("every number of bytes, ({q}, {n})"), move |random| byte_lengths(q, n, random));
    }
    group
}

/// Numbers around every border, and some whose square or product would wrap.
pub fn shape_numbers(upto: u32) -> Vec<u32> {
    let wrapping = [64, 255, 256, 259, 65_535, 65_536, 65_539, 1 << 31, (1 << 31) + 3, u32::MAX - 1, u32::MAX];
    (0..=upto).chain(wrapping).collect()
}

/// Each with the standard slopes, and with a slope that stands seven times: 1 comes before 18.
fn shapes(entry: Entry, random: &mut Random) -> Verdict {
    let call = good(entry, Shape::new(5, 3, 9), random);
    let mut tried = 0;
    for q in shape_numbers(40) {
        for n in shape_numbers(10) {
            for b in shape_numbers(34) {
                let shape = Shape::new(q, n, b);
                for shape in [shape, shape.with_slopes([random.pick(&[1, 31, q, u32::MAX]); SLOPES])] {
                    expect_reference(Call::on_library, &reshaped(&call, shape))?;
                    tried += 1;
                }
            }
        }
    }
    Ok(tried)
}

/// Every slice of every entry that crosses with its length too short and too long, the others right.
fn lengths(q: u32, n: u32, random: &mut Random) -> Verdict {
    let mut tried = 0;
    for entry in ENTRIES {
        let b = random.pick(&[1, 8, 11, 31, 32]);
        let call = good(entry, random.shape(q, n, b), random);
        for (i, slice) in call.slices.iter().enumerate().filter(|(i, _)| !entry.is_fixed(*i)) {
            let right = slice.len();
            let wrong =
                [0, 1, right / 4, right.saturating_sub(4), right.saturating_sub(1), right + 1, right + 4, 4 * right];
            for length in wrong.into_iter().filter(|&length| length != right) {
                expect_reference(Call::on_library, &with_length(&call, i, length, random))?;
                tried += 1;
            }
        }
    }
    Ok(tried)
}

/// A scratch as long as before request N7, and one value too short or too long: 2, and nothing else is
/// touched.
fn scratch_lengths(q: u32, n: u32, random: &mut Random) -> Verdict {
    let mut tried = 0;
    for entry in [Entry::Encode, Entry::Extract, Entry::Fill, Entry::Restore, Entry::Arrive, Entry::Batch] {
        let shape = random.shape(q, n, 11);
        let right = shape.scratch_len();
        for length in [old_scratch_len(shape), right - 1, right + 1] {
            let mut call = good(entry, shape, random);
            let scratch = call.slices.iter_mut().zip(entry.slice_names()).find(|(_, name)| **name == "scratch");
            scratch.expect("an entry that is lent one").0.resize(length, 7);
            expect_reference(Call::on_library, &call)?;
            if !is_refused_by_length(&call) {
                return Err(format!("{entry:?} of {shape:?} takes a scratch of {length}"));
            }
            tried += 1;
        }
    }
    Ok(tried)
}

/// 2, with everything as lent; an arrival says so in its outcome.
fn is_refused_by_length(call: &Call) -> bool {
    let (after, mut left) = (call.on_library(), call.slices.clone());
    if call.entry == Entry::Arrive {
        left[3] = vec![2, 2, 0];
        return after.answer == 0 && after.slices == left;
    }
    after.answer == answer_of(Err(Refusal::Length)) && after.slices == left
}

/// The host pair with every number of bytes up to twice the right one and more.
fn byte_lengths(q: u32, n: u32, random: &mut Random) -> Verdict {
    let mut tried = 0;
    for entry in [Entry::HostReadWord, Entry::HostReadPage] {
        let call = good(entry, Shape::new(q, n, 16), random);
        for length in 0..=2 * call.slices[0].len() + 8 {
            expect_reference(Call::on_library, &with_length(&call, 0, length, random))?;
            tried += 1;
        }
    }
    Ok(tried)
}

/// Those that test the width of a slice.
fn tests_width(entry: &Entry) -> bool {
    entry.takes_shape() && *entry != Entry::Fresh || matches!(entry, Entry::Arrive | Entry::Batch)
}

/// Which slice has the symbols that test 3 is about.
fn judged(entry: Entry) -> usize {
    let lists_first = matches!(entry, Entry::Fill | Entry::Restore);
    usize::from(lists_first || matches!(entry, Entry::Arrive | Entry::Batch | Entry::Bill | Entry::Cover))
}

/// Values at 2^b - 1, 2^b and 2^32 - 1 at the ends and somewhere inside each slice.
fn widths(q: u32, n: u32, random: &mut Random) -> Verdict {
    let mut tried = 0;
    for b in [1, 8, 11, 31, 32] {
        for entry in ENTRIES.into_iter().filter(tests_width) {
            let shape = random.shape(q, n, b);
            let call = good(entry, shape, random);
            let judged = judged(entry);
            let length = call.slices[judged].len();
            for at in [0, length / 2, length.saturating_sub(1), random.below(length + 1)] {
                for value in [shape.largest(), shape.largest().saturating_add(1), u32::MAX] {
                    let mut call = call.clone();
                    if let Some(symbol) = call.slices[judged].get_mut(at) {
                        *symbol = value;
                    }
                    tried += expect_also_of_host(&call)?;
                }
            }
        }
    }
    Ok(tried)
}

/// The call, and the same call of the host pair where it has one. Gives the number of calls.
fn expect_also_of_host(call: &Call) -> Verdict {
    expect_reference(Call::on_library, call)?;
    let entry = match call.entry {
        Entry::Decode => Entry::HostReadWord,
        Entry::ReadPage => Entry::HostReadPage,
        _ => return Ok(1),
    };
    expect_reference(Call::on_library, &Call::new(entry, call.shape, &[&to_bytes(&call.slices[0])]))?;
    Ok(2)
}

fn several_faults(q: u32, n: u32, random: &mut Random) -> Verdict {
    let mut tried = 0;
    for _ in 0..120 {
        let entry = random.pick(&ENTRIES);
        let b = random.pick(&[1, 2, 8, 9, 11, 31, 32]);
        let mut call = good(entry, random.shape(q, n, b), random);
        for _ in 0..1 + random.below(3) {
            spoil(&mut call, random);
        }
        tried += expect_also_of_host(&call)?;
    }
    Ok(tried)
}

/// One fault of any kind. Two of them may cancel; the reference then says so.
fn spoil(call: &mut Call, random: &mut Random) {
    match random.below(6) {
        0 => {
            let Shape { q, n, slopes, .. } = call.shape;
            let bad = [Shape::new(9, 2, 8), Shape::new(3, 4, 8), Shape::new(q, n, 33)];
            reshape(call, random.pick(&bad).with_slopes(slopes));
        }
        1 => spoil_slope(call, random),
        2 => spoil_length(call, random),
        3 => call.number = random.pick(&[255, 256, PAGES as u32 - 1, PAGES as u32, u32::MAX]),
        4 if call.entry.takes_session() => spoil_figure(call, random),
        _ => spoil_symbol(call, random),
    }
}

/// A slope that is too large or stands elsewhere in the list, at a place that counts or not.
fn spoil_slope(call: &mut Call, random: &mut Random) {
    let Shape { q, mut slopes, .. } = call.shape;
    slopes[random.below(SLOPES)] = random.pick(&[q, q + 1, u32::MAX, slopes[0], slopes[SLOPES - 1]]);
    reshape(call, call.shape.with_slopes(slopes));
}

/// A slice too short or too long, where one crosses with its length.
fn spoil_length(call: &mut Call, random: &mut Random) {
    let i = random.below(call.slices.len());
    if !call.entry.is_fixed(i) {
        let length = call.slices[i].len();
        let length = random.pick(&[0, length.saturating_sub(1), length + 1, length + 32]);
        *call = with_length(call, i, length, random);
    }
}

/// Another figure, or another mark under the same figures.
fn spoil_figure(call: &mut Call, random: &mut Random) {
    let at = random.pick(&[PAGES_AT, LOWEST_AT, MARKS_AT, MARKS_AT + 1, CALLS_AT - 1]);
    let value = random.pick(&[0, 1, 2, PAGES as u32, u32::MAX]);
    call.slices[0][at] = value;
}

/// A number in a slice that the entry judges: page number, count, mark, tail, any symbol or place.
fn spoil_symbol(call: &mut Call, random: &mut Random) {
    let of_places = matches!(call.entry, Entry::Fill | Entry::Restore) && random.one_in(2);
    let judged = if of_places { 0 } else { judged(call.entry) };
    let limit = if call.entry.takes_bytes() { 255 } else { u32::MAX };
    let slice = &mut call.slices[judged];
    if slice.is_empty() || matches!(call.entry, Entry::Fresh | Entry::Count) {
        return;
    }
    let at = random.pick(&[0, 1, 2, 3, slice.len() / 2, slice.len() - 1]).min(slice.len() - 1);
    let power = 1 << random.below(32);
    let value = random.pick(&[0, 1, 255, 256, 899, 1024, u32::MAX, power]);
    slice[at] = value.min(limit);
}
