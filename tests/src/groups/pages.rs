//! The page reader and the page writer.

use super::every::repeated;
use super::expect::expect_reference;
use crate::call::{to_bytes, Call, Entry};
use crate::capture::Page;
use crate::random::Random;
use crate::reference::shape::Shape;
use crate::report::{Group, Unit, Verdict};

pub fn group() -> Group {
    let mut group = Group::new("pages", Unit::Calls);
    let widths = |_, _: &mut Random| repeated(&[1, 2, 8, 9, 10, 11, 31, 32], 60);
    group.test_shapes("reading, (q, n)", widths, reading);
    group.test_shapes("writing, (q, n)", widths, writing);
    group
}

/// Numbers around every border of the page's rules.
fn border(shape: Shape, random: &mut Random) -> u32 {
    let most = shape.most_marks() as u32;
    let borders = [0, 1, most.saturating_sub(1), most, most + 1, 255, 256, 1023, 1024, 1025, shape.largest(), u32::MAX];
    match random.below(4) {
        0 => random.number(),
        _ => random.pick(&borders),
    }
}

fn reading(shape: Shape, random: &mut Random) -> Verdict {
    let mut data = Page::any(shape, random).symbols(shape);
    for _ in 0..random.below(4) {
        let any = random.below(data.len());
        let at = random.pick(&[0, 1, 2, any, data.len() - 1]).min(data.len() - 1);
        // Most faults fit the width, so that the later tests are reached.
        data[at] = border(shape, random) & if random.one_in(4) { u32::MAX } else { shape.largest() };
    }
    let marks = Call::new(Entry::Marks, shape, &[&data, &random.numbers(data.len())]);
    let read = Call::new(Entry::ReadPage, shape, &[&data]);
    let of_host = Call::new(Entry::HostReadPage, shape, &[&to_bytes(&data)]);
    for call in [read, of_host, marks] {
        expect_reference(Call::on_library, &call)?;
    }
    Ok(3)
}

fn writing(shape: Shape, random: &mut Random) -> Verdict {
    let Page { mut number, mut marks } = Page::any(shape, random);
    if random.one_in(3) {
        number = border(shape, random);
    }
    if random.one_in(3) {
        let most = shape.most_marks();
        marks.resize(random.pick(&[0, most, most + 1, most + 2, most + 100]), 0);
    }
    if !marks.is_empty() && random.one_in(3) {
        let at = random.below(marks.len());
        marks[at] = border(shape, random);
    }
    let excess = if random.one_in(5) { 1 } else { 0 };
    let data = random.numbers(shape.data_len() + excess);
    expect_reference(Call::on_library, &Call::numbered(Entry::WritePage, shape, number, &[&marks, &data]))?;
    Ok(1)
}
