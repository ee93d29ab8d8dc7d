//! Dead cells: words with places that are named as gone. What must come is said here where the case itself
//! settles it, by trying every codeword where these are few, and by the reference elsewhere.

pub(super) mod cases;
pub(super) mod faults;

use super::every::{Shapes, WIDTHS};
use super::expect::{expect, expect_reference};
use crate::call::{After, Call, Entry, Make};
use crate::damage::list;
use crate::random::Random;
use crate::reference::brute::{agreeing, all_codewords, all_words};
use crate::reference::elimination::{Basis, Positions};
use crate::reference::shape::{Refusal, Shape};
use crate::reference::square::is_codeword;
use crate::reference::writer::{codeword, information};
use crate::report::{Group, Unit, Verdict};
use cases::{
    damaged, expect_sent, fill, filled, first, limit, lost, on_lines, outside, refused, shuffled, some_circuits,
    some_places, unlisted, PLACES, WORD,
};
use faults::{lengths, refused_lists, several_faults, widths};

/// The group for whichever makes the calls.
pub fn group(name: String, make: Make) -> Group {
    let mut group = Group::new(name, Unit::Calls);
    let mut shapes = Shapes::new(&mut group, make, WIDTHS);
    shapes.test("few places, (q, n)", few_places);
    shapes.test("damage elsewhere, (q, n)", damage_elsewhere);
    shapes.test("lines, (q, n)", lines);
    shapes.test("crossing lines, (q, n)", crossing_lines);
    shapes.test("circuits, (q, n)", circuits);
    shapes.test("parity positions, (q, n)", parity_positions);
    shapes.test("any list, (q, n)", any_list);
    shapes
        .test("lists that are refused, (q, n)", |make, shape, random| refused_lists(Entry::Fill, make, shape, random));
    shapes.test("lengths, (q, n)", |make, shape, random| lengths(Entry::Fill, make, shape, random));
    shapes.test("widths, (q, n)", |make, shape, random| widths(Entry::Fill, make, shape, random));
    shapes.test("several faults, (q, n)", |make, shape, random| several_faults(Entry::Fill, make, shape, random));
    group.test_all_words(&[2, 3], move |shape, random| every_word(make, shape, random));
    let small = [(3, 2, 2), (3, 2, 3), (3, 3, 2), (3, 3, 4), (5, 4, 1), (5, 5, 1), (5, 5, 2), (7, 6, 1), (7, 7, 2)];
    group.test_drawn("sampled words of (q, n, b)", &small, 4, move |shape, random| sampled(make, shape, random));
    group
}

/// From none to a few more than the limit; up to the limit it is the sent word.
fn few_places(make: Make, shape: Shape, random: &mut Random) -> Verdict {
    let mut tried = 0;
    for count in 0..=shape.word_len().min(limit(shape) + 3) {
        for places in some_places(shape, count, random) {
            let sent = random.codeword(shape);
            let call = fill(shape, &places, &lost(shape, &sent, &places, random), random);
            if count <= limit(shape) {
                expect(make, &call, &filled(&call, &sent))?;
            } else {
                expect_sent(make, &call, &sent)?;
            }
            tried += 1;
        }
    }
    Ok(tried)
}

/// Damage off the list. A codeword that agrees would differ from the sent one at listed and damaged places
/// alone; within the limit there is none.
fn damage_elsewhere(make: Make, shape: Shape, random: &mut Random) -> Verdict {
    let mut tried = 0;
    for count in 0..=shape.word_len().min(limit(shape) + 1) {
        for places in some_places(shape, count, random) {
            let sent = random.codeword(shape);
            let weight = 1 + random.below(3);
            let others = unlisted(shape, &places, weight, random);
            let word = damaged(shape, lost(shape, &sent, &places, random), &others, random);
            let call = fill(shape, &places, &word, random);
            if count + others.len() <= limit(shape) {
                expect(make, &call, &refused(&call, Refusal::Unfillable))?;
            } else {
                expect_reference(make, &call)?;
            }
            tried += 1;
        }
    }
    Ok(tried)
}

/// Whole lines of one direction. The places of a single one are each alone on a check of another direction;
/// n of them are more places than there are independent columns.
fn lines(make: Make, shape: Shape, random: &mut Random) -> Verdict {
    let mut tried = 0;
    let (q, n) = (shape.q as usize, shape.n as usize);
    for t in 0..n {
        for count in [1, 2, n - 1, n, n + 1].into_iter().filter(|&count| count <= q) {
            let start = random.below(q);
            let neighbours = (0..count).map(|i| (start + i) % q).collect();
            for lines in [neighbours, random.positions(count, q)] {
                let places = on_lines(shape, t, &lines);
                let sent = random.codeword(shape);
                let word = lost(shape, &sent, &places, random);
                let call = fill(shape, &places, &word, random);
                if count == 1 {
                    expect(make, &call, &filled(&call, &sent))?;
                } else if count >= n {
                    expect(make, &call, &refused(&call, Refusal::Ambiguous))?;
                } else {
                    expect_sent(make, &call, &sent)?;
                }
                let others = unlisted(shape, &places, 1, random);
                let call = fill(shape, &places, &damaged(shape, word, &others, random), random);
                expect_reference(make, &call)?;
                tried += 2;
            }
        }
    }
    Ok(tried)
}

/// Two lines of different directions, each place but the crossing alone on a check of the other's direction;
/// then some lines of any directions.
fn crossing_lines(make: Make, shape: Shape, random: &mut Random) -> Verdict {
    let (q, n) = (shape.q as usize, shape.n as usize);
    let mut tried = 0;
    for t in 0..n {
        for other in 0..t {
            let mut places = on_lines(shape, t, &[random.below(q)]);
            places.extend(on_lines(shape, other, &[random.below(q)]));
            places.sort_unstable();
            places.dedup();
            let sent = random.codeword(shape);
            let call = fill(shape, &places, &lost(shape, &sent, &places, random), random);
            expect(make, &call, &filled(&call, &sent))?;
            tried += 1;
        }
    }
    for count in 2..6 {
        let mut any_line = || on_lines(shape, random.below(n), &[random.below(q)]);
        let mut places: Vec<u32> = (0..count).flat_map(|_| any_line()).collect();
        places.sort_unstable();
        places.dedup();
        let sent = random.codeword(shape);
        let call = fill(shape, &places, &lost(shape, &sent, &places, random), random);
        expect_sent(make, &call, &sent)?;
        tried += 1;
    }
    Ok(tried)
}

/// Circuits are 14, and with more places too; without one of their places they are filled in. Where the
/// list contradicts itself as well it is 13, before 14.
fn circuits(make: Make, shape: Shape, random: &mut Random) -> Verdict {
    let mut tried = 0;
    for circuit in some_circuits(shape, random) {
        let mut alone = vec![0; shape.word_len()];
        circuit.iter().for_each(|&place| alone[place as usize] = shape.largest());
        if !is_codeword(shape, &alone) || circuit.len() <= limit(shape) {
            return Err(format!("{shape:?}: {circuit:?} is no circuit, or too small a one"));
        }
        let extra = random.below(1 + shape.q as usize);
        let more = unlisted(shape, &circuit, extra, random);
        let more = list(more.into_iter().chain(circuit.iter().map(|&place| place as usize)).collect());
        let mut less = circuit.clone();
        less.remove(random.below(less.len()));
        for (places, several) in [(&circuit, true), (&more, true), (&less, false)] {
            let sent = random.codeword(shape);
            let word = lost(shape, &sent, places, random);
            let call = fill(shape, places, &word, random);
            let expected = if several { refused(&call, Refusal::Ambiguous) } else { filled(&call, &sent) };
            expect(make, &call, &expected)?;
            tried += 1;
            if let Some(j) = outside(shape, places, random) {
                let call = fill(shape, places, &damaged(shape, word, &[j], random), random);
                expect(make, &call, &refused(&call, Refusal::Unfillable))?;
                tried += 1;
            }
        }
    }
    Ok(tried)
}

/// With the parity positions listed any word is filled in, as the writer does from its information symbols;
/// with any one more it is 14. So too with other places of as many independent columns.
fn parity_positions(make: Make, shape: Shape, random: &mut Random) -> Verdict {
    let mut tried = 0;
    let positions = Positions::of(shape);
    let mut any = Basis::default();
    for j in shuffled(shape, random) {
        any.take(shape, j);
    }
    for places in [list(positions.parity.clone()), list(any.positions)] {
        let word = random.symbols(shape, shape.word_len());
        let call = fill(shape, &places, &word, random);
        expect_reference(make, &call)?;
        if places == list(positions.parity.clone()) {
            expect(make, &call, &filled(&call, &codeword(shape, &information(shape, &word))))?;
        }
        let one = unlisted(shape, &places, 1, random);
        let more = list(places.iter().map(|&place| place as usize).chain(one).collect());
        let call = fill(shape, &more, &word, random);
        expect(make, &call, &refused(&call, Refusal::Ambiguous))?;
        let mut less = places;
        less.remove(random.below(less.len()));
        let call = fill(shape, &less, &word, random);
        expect_reference(make, &call)?;
        tried += 3;
    }
    Ok(tried)
}

/// Lists of any size: all places, where it is always 14, all but one, every second, and any; words with
/// right symbols, with wrong ones, with damage elsewhere, and words that have nothing to do with a codeword.
fn any_list(make: Make, shape: Shape, random: &mut Random) -> Verdict {
    let size = shape.word_len();
    let all = list((0..size).collect());
    let mut lists = vec![(0..size as u32).step_by(2).collect(), first(shuffled(shape, random), size - 1)];
    for _ in 0..3 {
        let count = random.below(size + 1);
        lists.push(first(shuffled(shape, random), count));
        let rank = size - shape.data_len();
        lists.push(first(shuffled(shape, random), random.below(rank + 1)));
    }
    for places in &lists {
        let sent = random.codeword(shape);
        let call = fill(shape, places, &sent, random);
        expect_sent(make, &call, &sent)?;
        let word = lost(shape, &sent, places, random);
        let call = fill(shape, places, &word, random);
        expect_sent(make, &call, &sent)?;
        let others = unlisted(shape, places, 1, random);
        for word in [damaged(shape, word, &others, random), random.symbols(shape, size)] {
            let call = fill(shape, places, &word, random);
            expect_reference(make, &call)?;
        }
    }
    for word in [random.codeword(shape), random.symbols(shape, size)] {
        let call = fill(shape, &all, &word, random);
        expect(make, &call, &refused(&call, Refusal::Ambiguous))?;
    }
    Ok(4 * lists.len() as u64 + 2)
}

/// What the definition says, over all codewords.
fn by_definition(call: &Call, codewords: &[Vec<u32>]) -> After {
    match agreeing(codewords, &call.slices[WORD], &call.slices[PLACES])[..] {
        [] => refused(call, Refusal::Unfillable),
        [only] => filled(call, only),
        _ => refused(call, Refusal::Ambiguous),
    }
}

/// All 2^9 words with all lists of up to 4 places, and some with each longer list; of n = 3 fewer of both.
fn every_word(make: Make, shape: Shape, random: &mut Random) -> Verdict {
    let words = all_words(shape);
    let codewords: Vec<Vec<u32>> = words.iter().filter(|word| is_codeword(shape, word)).cloned().collect();
    if codewords != sorted(all_codewords(shape)) {
        return Err(format!("{shape:?}: not all codewords are written"));
    }
    let mut tried = 0;
    for bits in 0..1 << shape.word_len() {
        let places = list((0..shape.word_len()).filter(|j| bits >> j & 1 == 1).collect());
        for word in &words {
            if shape.n == 2 && places.len() <= 4 || random.one_in(16) {
                let call = Call::new(Entry::Fill, shape, &[&places, word, &vec![7; shape.scratch_len()]]);
                expect(make, &call, &by_definition(&call, &codewords))?;
                tried += 1;
            }
        }
    }
    Ok(tried)
}

fn sorted(mut words: Vec<Vec<u32>>) -> Vec<Vec<u32>> {
    words.sort();
    words
}

/// Any lists, with and without damage elsewhere.
fn sampled(make: Make, shape: Shape, random: &mut Random) -> Verdict {
    let mut tried = 0;
    let codewords = all_codewords(shape);
    for _ in 0..60 {
        let count = random.below(shape.word_len() + 1);
        let [spread, crowded, on_line] = some_places(shape, count, random);
        let circuits = some_circuits(shape, random);
        let circuit = circuits[random.below(circuits.len())].clone();
        for places in [spread, crowded, on_line, circuit] {
            let sent = &codewords[random.below(codewords.len())];
            let others = unlisted(shape, &places, random.below(3), random);
            let word = damaged(shape, lost(shape, sent, &places, random), &others, random);
            let call = fill(shape, &places, &word, random);
            expect(make, &call, &by_definition(&call, &codewords))?;
            tried += 1;
        }
    }
    Ok(tried)
}
