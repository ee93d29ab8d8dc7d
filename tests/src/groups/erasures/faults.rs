//! Lists, lengths and widths that are turned down, and several faults at once, of filling in and of restoring.

use super::cases::{
    damaged, filled, first, limit, lost, outside, refused, shuffled, some_circuits, some_places, unlisted, with_places,
    PLACES, SCRATCH, WORD,
};
use crate::call::{Call, Entry, Make};
use crate::groups::calls::{choices, old_scratch_len, reshaped, with_length};
use crate::groups::expect::expect;
use crate::random::Random;
use crate::reference::shape::{Refusal, Shape};
use crate::report::Verdict;

/// A rising list with one thing wrong: places that fall, stand twice or are no positions.
fn faulty(shape: Shape, places: &[u32], random: &mut Random) -> Vec<Vec<u32>> {
    let size = shape.word_len() as u32;
    let mut lists = vec![];
    let mut with = |change: &dyn Fn(&mut Vec<u32>)| {
        let mut places = places.to_vec();
        change(&mut places);
        lists.push(places);
    };
    for large in [size, size + 1, 1 << 16, 1 << 31, u32::MAX] {
        with(&|places| places.push(large));
        with(&|places| places.insert(0, large));
    }
    if places.is_empty() {
        return lists;
    }
    let (i, last) = (random.below(places.len()), places.len() - 1);
    for large in [size, places[i] + size, places[i] | 1 << 16, places[i] | 1 << 31, u32::MAX] {
        with(&|places| places[i] = large);
    }
    with(&|places| places.insert(i, places[i]));
    with(&|places| places.push(places[0]));
    with(&|places| places.push(places[last]));
    with(&|places| places.extend(places.clone()));
    if last > 0 {
        let j = random.below(last);
        with(&|places| places.swap(j, j + 1));
        with(&|places| places[j + 1] = places[j]);
        with(&|places| places[j] = places[j + 1]);
        with(&|places| places.swap(0, last));
        with(&|places| places.reverse());
    }
    lists
}

/// 12, whatever the word.
pub fn refused_lists(entry: Entry, make: Make, shape: Shape, random: &mut Random) -> Verdict {
    let size = shape.word_len();
    let mut lists: Vec<Vec<u32>> =
        vec![vec![0, 0], vec![1, 0], vec![0; size + 1], (0..=size as u32).collect(), (0..2 * size as u32).collect()];
    lists.extend([vec![0; 1 << 16], (0..(1 << 16) + 2).collect(), (0..size as u32).rev().collect()]);
    for count in [0, 1, 2, shape.n as usize, size / 2, size - 1, size, random.below(size)] {
        let places = first(shuffled(shape, random), count);
        lists.extend(faulty(shape, &places, random));
    }
    let sent = random.codeword(shape);
    for places in &lists {
        let word = if random.one_in(2) { sent.clone() } else { random.symbols(shape, size) };
        let call = with_places(entry, shape, places, &word, random);
        expect(make, &call, &refused(&call, Refusal::Places))?;
    }
    Ok(lists.len() as u64)
}

/// A word that could be filled in, with at most so many places as the limit says.
fn fillable(entry: Entry, shape: Shape, random: &mut Random) -> (Call, Vec<u32>) {
    let count = random.below(limit(shape) + 1);
    let [places, ..] = some_places(shape, count, random);
    let sent = random.codeword(shape);
    let word = lost(shape, &sent, &places, random);
    (with_places(entry, shape, &places, &word, random), sent)
}

/// Word or scratch too short or too long, the scratch as long as before request N7 among them: 2.
pub fn lengths(entry: Entry, make: Make, shape: Shape, random: &mut Random) -> Verdict {
    let mut tried = 0;
    let (size, scratch, old) = (shape.word_len(), shape.scratch_len(), old_scratch_len(shape));
    let words = [0, 1, size - 1, size + 1, 2 * size, shape.data_len()].map(|length| (WORD, length));
    let scratches = [0, 1, scratch - 1, scratch + 1, old, old - 1, old + 1, size * shape.row_len(), 2 * scratch];
    let wrong = words.into_iter().chain(scratches.map(|length| (SCRATCH, length)));
    for (slice, length) in wrong.filter(|&(slice, length)| slice == WORD || length != scratch) {
        let (call, _) = fillable(entry, shape, random);
        let call = with_length(&call, slice, length, random);
        expect(make, &call, &refused(&call, Refusal::Length))?;
        tried += 1;
    }
    Ok(tried)
}

/// The largest symbol is as good as any at a listed place, a larger one is 3 there as elsewhere.
pub fn widths(entry: Entry, make: Make, shape: Shape, random: &mut Random) -> Verdict {
    let mut tried = 0;
    let size = shape.word_len();
    for _ in 0..6 {
        let (mut call, sent) = fillable(entry, shape, random);
        let (places, word) = (call.slices[PLACES].clone(), call.slices[WORD].clone());
        let listed = (!places.is_empty()).then(|| random.pick(&places) as usize);
        if let Some(j) = listed {
            call.slices[WORD][j] = shape.largest();
            expect(make, &call, &filled(&call, &sent))?;
            tried += 1;
        }
        if shape.b == 32 {
            continue;
        }
        let above = shape.largest() + 1;
        let at = listed.into_iter().chain(unlisted(shape, &places, 1, random)).chain([0, size - 1]);
        for j in at {
            for wide in [above, word[j] | above, word[j] | 1 << 31, u32::MAX] {
                call.slices[WORD].copy_from_slice(&word);
                call.slices[WORD][j] = wide;
                expect(make, &call, &refused(&call, Refusal::Width))?;
                tried += 1;
            }
        }
    }
    Ok(tried)
}

/// The refusal where no codeword agrees, or none is within reach.
fn none(entry: Entry) -> Refusal {
    if entry == Entry::Restore {
        Refusal::Far
    } else {
        Refusal::Unfillable
    }
}

/// The tests in their order.
fn order(entry: Entry) -> [Refusal; 7] {
    let first = [Refusal::Shape, Refusal::Slope, Refusal::Length, Refusal::Width, Refusal::Places];
    let [shape, slope, length, width, places] = first;
    [shape, slope, length, width, places, none(entry), Refusal::Ambiguous]
}

/// Every choice of faults: the first in order is the answer. A circuit without one of its places has 2n - 1 or more, so
/// restoring too may change nothing beside them.
pub fn several_faults(entry: Entry, make: Make, shape: Shape, random: &mut Random) -> Verdict {
    let mut tried = 0;
    let circuits = some_circuits(shape, random);
    let outsides: Vec<Option<usize>> = circuits.iter().map(|circuit| outside(shape, circuit, random)).collect();
    for faults in choices(&order(entry)) {
        let i = random.below(circuits.len());
        let lacking = (faults.contains(&Refusal::Width) && shape.b == 32)
            || (faults.contains(&none(entry)) && outsides[i].is_none());
        if lacking {
            continue;
        }
        let (call, sent) = spoiled_call(entry, shape, &circuits[i], outsides[i], &faults, random);
        let expected = faults.first().map_or_else(|| filled(&call, &sent), |&refusal| refused(&call, refusal));
        expect(make, &call, &expected)?;
        tried += 1;
    }
    Ok(tried)
}

/// A call with these faults, made from a circuit and a position outside of it; and the word that was sent.
fn spoiled_call(
    entry: Entry,
    shape: Shape,
    circuit: &[u32],
    outside: Option<usize>,
    faults: &[Refusal],
    random: &mut Random,
) -> (Call, Vec<u32>) {
    let has = |refusal: Refusal| faults.contains(&refusal);
    let mut places = circuit.to_vec();
    if !has(Refusal::Ambiguous) {
        places.remove(random.below(places.len()));
    }
    let sent = random.codeword(shape);
    let mut word = lost(shape, &sent, &places, random);
    if let Some(j) = outside.filter(|_| has(none(entry))) {
        word = damaged(shape, word, &[j], random);
    }
    let mut call = with_places(entry, shape, &places, &word, random);
    if has(Refusal::Places) {
        let mut lists = faulty(shape, &places, random);
        call.slices[PLACES] = lists.swap_remove(random.below(lists.len()));
    }
    if has(Refusal::Width) {
        let any = [random.pick(&places) as usize, random.below(word.len())];
        call.slices[WORD][random.pick(&any)] |= shape.largest() + 1;
    }
    if has(Refusal::Length) {
        spoil_length(&mut call, random);
    }
    let shape = spoiled_shape(shape, has(Refusal::Shape), has(Refusal::Slope), random);
    (reshaped(&call, shape), sent)
}

/// Word, scratch or both of another length.
fn spoil_length(call: &mut Call, random: &mut Random) {
    let old = old_scratch_len(call.shape);
    let choice = random.below(3);
    for slice in [WORD, SCRATCH].into_iter().filter(|&slice| choice == 0 || choice == slice) {
        let length = call.slices[slice].len();
        let other = if slice == SCRATCH { old } else { 2 * length };
        let length = random.pick(&[0, length - 1, length + 1, other]);
        *call = with_length(call, slice, length, random);
    }
}

/// The shape with a number outside its list, or a slope that is too large.
fn spoiled_shape(mut shape: Shape, of_numbers: bool, of_slopes: bool, random: &mut Random) -> Shape {
    if of_slopes {
        let place = random.below(shape.most_errors());
        shape.slopes[place] = random.pick(&[shape.q, u32::MAX]);
    }
    let Shape { q, n, b, .. } = shape;
    match random.below(3) {
        _ if !of_numbers => shape,
        0 => Shape { q: q + 1, ..shape },
        1 => Shape { n: random.pick(&[0, 1, q.min(8) + 1, n + 8]), ..shape },
        _ => Shape { b: random.pick(&[0, 33, b + 32]), ..shape },
    }
}
