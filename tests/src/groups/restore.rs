//! Dead cells and damage together: f places that are named as gone, and e other wrong symbols with 2e + f < 2n. What must
//! come is said here where the damage settles it, by trying every codeword where these are few, by the other readers
//! where these accept, and by the reference elsewhere.

mod small;

use super::elsewhere::{after_arrival, arrival, arriving, fresh, Come};
use super::erasures::cases::{
    filled, first, limit, lost, on_lines, refused, shuffled, some_circuits, some_places, unlisted, with_places, WORD,
};
use super::erasures::faults::{lengths, refused_lists, several_faults, widths};
use super::every::{Shapes, WIDTHS};
use super::expect::{expect, expect_reference};
use crate::call::{Call, Entry, Make};
use crate::capture::{own_tally, recording};
use crate::damage::{any, damaged, list, Error};
use crate::light::light;
use crate::random::Random;
use crate::reference::restorer::reach;
use crate::reference::session::{CALLS_AT, CLEAN};
use crate::reference::shape::{Refusal, Shape};
use crate::reference::square::{check, positions_on, xor};
use crate::report::{Group, Unit, Verdict};

/// The group for whichever makes the calls.
pub fn group(name: String, make: Make) -> Group {
    let mut group = Group::new(name, Unit::Words);
    let mut shapes = Shapes::new(&mut group, make, WIDTHS);
    shapes.test("every number of places and of wrong symbols, (q, n)", numbers);
    shapes.test("wrong symbols on the checks of the places, (q, n)", touched);
    shapes.test("as filling in, (q, n)", as_filling_in);
    shapes.test("as the nearest codeword, (q, n)", as_the_nearest);
    shapes.test("many places, (q, n)", many_places);
    shapes.test("random words, (q, n)", random_words);
    shapes.test("restored words that arrive, (q, n)", arrivals);
    shapes.test("lists that are refused, (q, n)", |make, shape, random| {
        refused_lists(Entry::Restore, make, shape, random)
    });
    shapes.test("lengths, (q, n)", |make, shape, random| lengths(Entry::Restore, make, shape, random));
    shapes.test("widths, (q, n)", |make, shape, random| widths(Entry::Restore, make, shape, random));
    shapes.test("several faults, (q, n)", |make, shape, random| several_faults(Entry::Restore, make, shape, random));
    let mut two_widths = Shapes::new(&mut group, make, |_, random| vec![1, random.pick(&[8, 31, 32])]);
    two_widths.test("towards a light codeword, (q, n)", towards_a_light_one);
    two_widths.test("towards another codeword, (q, n)", towards_another);
    group.test("the shipped shape and its neighbours", move |random| shipped(make, random));
    group.test_all_words(&[2, 3], move |shape, random| small::every_word(make, shape, random));
    let small = [(3, 2, 2), (3, 2, 3), (3, 3, 2), (3, 3, 4), (5, 2, 1), (5, 3, 1), (5, 4, 1), (5, 4, 2), (5, 5, 1)];
    let others = [(5, 5, 2), (5, 5, 3), (7, 6, 1), (7, 7, 1), (7, 7, 2)];
    group.test_drawn("sampled words of (q, n, b)", &[&small[..], &others].concat(), 2, move |shape, random| {
        small::sampled(make, shape, random)
    });
    group
}

fn restore(shape: Shape, places: &[u32], word: &[u32], random: &mut Random) -> Call {
    with_places(Entry::Restore, shape, places, word, random)
}

/// This codeword with anything at the places and this error off them: within reach it comes back. Another codeword
/// within reach differs from it at the places, at the error's and at as many more as are in reach: where these are not
/// 2n, there is none, and the word is refused. Elsewhere the reference says what comes.
fn expect_damaged(
    make: Make,
    shape: Shape,
    places: &[u32],
    sent: &[u32],
    error: &[(usize, u32)],
    random: &mut Random,
) -> Result<(), String> {
    let call = restore(shape, places, &damaged(&lost(shape, sent, places, random), error), random);
    let most = reach(shape, places.len());
    if places.len() <= limit(shape) && error.len() <= most {
        expect(make, &call, &filled(&call, sent))
    } else if places.len() + error.len() + most <= limit(shape) {
        expect(make, &call, &refused(&call, Refusal::Far))
    } else {
        expect_reference(make, &call)
    }
}

/// Up to so many positions off the list with any symbols, or with one symbol.
fn error_at(shape: Shape, positions: Vec<usize>, random: &mut Random) -> Error {
    let (same, one) = (random.one_in(2), random.nonzero_symbol(shape));
    positions.into_iter().map(|j| (j, if same { one } else { random.nonzero_symbol(shape) })).collect()
}

/// From no place to two more than 2n, each with no other symbol wrong, with as many as are in reach, with one fewer and
/// with one and two more.
fn numbers(make: Make, shape: Shape, random: &mut Random) -> Verdict {
    let mut tried = 0;
    for count in 0..=shape.word_len().min(limit(shape) + 3) {
        let most = reach(shape, count);
        for weight in [0, most.saturating_sub(1), most, most + 1, most + 2] {
            let places = some_places(shape, count, random);
            let places = &places[random.below(places.len())];
            let others = unlisted(shape, places, weight, random);
            let error = error_at(shape, others, random);
            expect_damaged(make, shape, places, &random.codeword(shape), &error, random)?;
            tried += 1;
        }
    }
    Ok(tried)
}

/// Places and wrong symbols all on few checks: of one line, of two lines that cross, or on the checks of one position
/// that is none of them. Then most checks that would show a wrong symbol have a listed place on them.
fn touched(make: Make, shape: Shape, random: &mut Random) -> Verdict {
    let mut tried = 0;
    for count in 1..limit(shape) {
        let most = reach(shape, count);
        for pool in [line(shape, 1, random), line(shape, 2, random), around(shape, random)] {
            for weight in [most.max(1), most + 1] {
                let mut pool = pool.clone();
                random.shuffle(&mut pool);
                let places = first(pool.clone(), count);
                let others = pool.into_iter().filter(|&j| !places.contains(&(j as u32))).take(weight).collect();
                let error = error_at(shape, others, random);
                expect_damaged(make, shape, &places, &random.codeword(shape), &error, random)?;
                tried += 1;
            }
        }
    }
    Ok(tried)
}

/// The positions of so many lines, each of any direction.
fn line(shape: Shape, lines: usize, random: &mut Random) -> Vec<usize> {
    let mut any = || on_lines(shape, random.below(shape.n as usize), &[random.below(shape.q as usize)]);
    let mut positions: Vec<usize> = (0..lines).flat_map(|_| any()).map(|place| place as usize).collect();
    positions.sort_unstable();
    positions.dedup();
    positions
}

/// The positions on the checks of one position, without it.
fn around(shape: Shape, random: &mut Random) -> Vec<usize> {
    let centre = random.below(shape.word_len());
    let on = |t: usize| positions_on(shape, check(shape, t, centre));
    (0..shape.n as usize).flat_map(on).filter(|&j| j != centre).collect()
}

/// A part of the way from one codeword to another, some of it at listed places: near either end that end comes back.
fn towards(make: Make, shape: Shape, sent: &[u32], other: &[u32], random: &mut Random) -> Verdict {
    let apart = xor(sent, other);
    let mut between: Vec<usize> = (0..apart.len()).filter(|&j| apart[j] != 0).collect();
    let mut tried = 0;
    for count in 0..=limit(shape).min(between.len()) {
        random.shuffle(&mut between);
        let places = first(between.clone(), count);
        let error: Error = between[count..].iter().map(|&j| (j, apart[j])).collect();
        let (most, half) = (reach(shape, count), error.len() / 2);
        for weight in [most, most + 1, half, error.len() - error.len().min(most + 1)] {
            let weight = weight.min(error.len());
            let rest = error.len() - weight;
            if rest <= most {
                expect_damaged(make, shape, &places, other, &error[weight..], random)?;
            } else {
                expect_damaged(make, shape, &places, sent, &error[..weight], random)?;
            }
            tried += 1;
        }
    }
    Ok(tried)
}

/// Where the two are 2n apart, a list of an even number of the places between them leaves a word half way, out of reach
/// of both.
fn towards_a_light_one(make: Make, shape: Shape, random: &mut Random) -> Verdict {
    let symbol = random.nonzero_symbol(shape);
    let apart: Error = light(shape, random).into_iter().map(|j| (j, symbol)).collect();
    let sent = random.codeword(shape);
    towards(make, shape, &sent, &damaged(&sent, &apart), random)
}

fn towards_another(make: Make, shape: Shape, random: &mut Random) -> Verdict {
    let (sent, other) = (random.codeword(shape), random.codeword(shape));
    towards(make, shape, &sent, &other, random)
}

/// Whatever filling in accepts with at most 2n - 1 places comes to the same word and number, and what it refuses with 13
/// is not accepted as it came.
fn as_filling_in(make: Make, shape: Shape, random: &mut Random) -> Verdict {
    let mut tried = 0;
    for count in 0..=limit(shape).min(shape.word_len()) {
        for places in some_places(shape, count, random) {
            let weight = if random.one_in(2) { 0 } else { 1 + random.below(2 * shape.n as usize) };
            let others = unlisted(shape, &places, weight, random);
            let error = error_at(shape, others, random);
            let word = damaged(&lost(shape, &random.codeword(shape), &places, random), &error);
            let call = restore(shape, &places, &word, random);
            let given = make(&Call { entry: Entry::Fill, ..call.clone() });
            if given.answer < 1 << 31 {
                expect(make, &call, &given)?;
            } else if given != refused(&call, Refusal::Unfillable) {
                return Err(format!("{}: filling in gives {}", call.text(), given.answer));
            } else if make(&call).answer < 1 << 31 && make(&call).slices[WORD] == word {
                return Err(format!("{}: accepted as it came", call.text()));
            }
            tried += 1;
        }
    }
    Ok(tried)
}

/// With an empty list it gives what the nearest codeword gives, 20 too.
fn as_the_nearest(make: Make, shape: Shape, random: &mut Random) -> Verdict {
    let rounds = 12;
    for _ in 0..rounds {
        let word = damaged(&random.codeword(shape), &any(shape, shape.n as usize + 2, random));
        let call = restore(shape, &[], &word, random);
        let given = make(&Call::new(Entry::DecodeNearest, shape, &[&word]));
        let expected = match given.answer {
            answer if answer < 1 << 31 => filled(&call, &given.slices[0]),
            _ => refused(&call, Refusal::Far),
        };
        if expected.answer != given.answer {
            return Err(format!("{}: the nearest codeword gives {}", call.text(), given.answer));
        }
        expect(make, &call, &expected)?;
    }
    Ok(rounds)
}

/// From 2n places on nothing may be wrong beside them: what comes is what filling in gives, with 20 in the place of 13.
fn many_places(make: Make, shape: Shape, random: &mut Random) -> Verdict {
    let size = shape.word_len();
    let mut lists = some_circuits(shape, random);
    lists.extend([list((0..size).collect()), first(shuffled(shape, random), size - 1)]);
    for _ in 0..4 {
        let count = limit(shape) + 1 + random.below(size - limit(shape));
        lists.extend(some_places(shape, count.min(size), random));
    }
    lists.retain(|places| places.len() > limit(shape));
    for places in &lists {
        let others = unlisted(shape, places, random.below(3), random);
        let word = damaged(&lost(shape, &random.codeword(shape), places, random), &error_at(shape, others, random));
        let call = restore(shape, places, &word, random);
        let given = make(&Call { entry: Entry::Fill, ..call.clone() });
        let expected = if given == refused(&call, Refusal::Unfillable) { refused(&call, Refusal::Far) } else { given };
        expect(make, &call, &expected)?;
    }
    Ok(lists.len() as u64)
}

/// Words that have nothing to do with a codeword.
fn random_words(make: Make, shape: Shape, random: &mut Random) -> Verdict {
    let mut tried = 0;
    for count in 0..=limit(shape) {
        let places = first(shuffled(shape, random), count);
        expect_reference(make, &restore(shape, &places, &random.symbols(shape, shape.word_len()), random))?;
        tried += 1;
    }
    Ok(tried)
}

/// The pages of a recording with any dead cells and as much damage beside them as is undone, restored and handed in the
/// clean way: the counts are the recording's own. In between come words with more damage, which stay as they are.
fn arrivals(make: Make, shape: Shape, random: &mut Random) -> Verdict {
    let mut tried = 0;
    let pages = recording(shape, 6, random);
    let (mut come, mut state) = (Come::new(), fresh(shape));
    for page in arriving(&pages, 3, random) {
        let count = random.below(limit(shape) + 1);
        let places = first(shuffled(shape, random), count);
        let most = reach(shape, count);
        let weight = random.below(most + 1);
        // with one more than is in reach the sum of all stays below 2n if the number of places is even
        let weights = if count % 2 == 0 { vec![most + 1, weight] } else { vec![weight] };
        for weight in weights {
            let others = unlisted(shape, &places, weight, random);
            let sent = page.codeword(shape);
            let word = damaged(&lost(shape, &sent, &places, random), &error_at(shape, others, random));
            let after = make(&restore(shape, &places, &word, random));
            if weight > most {
                let left = after.slices[WORD] == word && after.answer == (1 << 31) + 20;
                left.then_some(()).ok_or_else(|| format!("{shape:?}: {weight} wrong beside {places:?} not refused"))?;
                continue;
            }
            let call = arrival(CLEAN, shape, &state, &after.slices[WORD], random);
            let expected = after_arrival(&call, page, 0, &mut come);
            expect(make, &call, &expected)?;
            state.copy_from_slice(&expected.slices[0]);
            tried += 1;
        }
    }
    if state[CALLS_AT..] != own_tally(&pages) {
        return Err(format!("{shape:?}: the counts are not the recording's"));
    }
    Ok(tried)
}

/// Order 17 with four directions and slopes 0, 1, 2, whatever the slopes past the third, and shapes that differ from it
/// in one number: what is restored may not depend on where the check numbers come from.
fn shipped(make: Make, random: &mut Random) -> Verdict {
    let anything = [u32::MAX, 17, 1, 2];
    let mut tried = 0;
    for (n, slopes) in [(4, [0, 1, 2]), (3, [0, 1, 2]), (4, [0, 1, 3]), (4, [0, 2, 1]), (4, [1, 0, 2])] {
        for b in [1, 8, 32] {
            let slopes = [&slopes[..], &anything].concat();
            let shape = Shape::new(17, n, b).with_slopes(slopes.try_into().expect("seven of them"));
            tried += numbers(make, shape, random)? + touched(make, shape, random)?;
        }
    }
    Ok(tried)
}
