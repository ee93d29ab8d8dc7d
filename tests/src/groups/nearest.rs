//! The nearest codeword: any damage to at most n - 1 symbols, whether it cancels on a check or not. What must come is
//! said here where the damage settles it, by trying every codeword where these are few, and by the reference elsewhere.

mod small;

use super::calls::turned_down;
use super::elsewhere::{after_arrival, arrival, arriving, fresh, Come};
use super::every::{faults, Shapes, WIDTHS};
use super::expect::{expect, expect_reference, restored};
use crate::call::{Call, Entry, Make};
use crate::capture::{own_tally, recording};
use crate::damage::{allowed, any, any_line, damaged, make as damage, unmasked, Error, STYLES};
use crate::light::{is_lightest, light};
use crate::random::Random;
use crate::reference::session::{ways_of, CALLS_AT, CLEAN};
use crate::reference::shape::{Refusal, Shape};
use crate::reference::square::{check, positions_on, xor};
use crate::reference::writer::codeword;
use crate::report::{Group, Unit, Verdict};

/// The group for whichever makes the calls.
pub fn group(name: String, make: Make) -> Group {
    let mut group = Group::new(name, Unit::Words);
    let mut shapes = Shapes::new(&mut group, make, WIDTHS);
    shapes.test("every weight, (q, n)", weights);
    shapes.test("stripes, (q, n)", stripes);
    shapes.test("values that cancel, (q, n)", cancelling);
    shapes.test("towards a light codeword, (q, n)", towards_a_light_one);
    shapes.test("towards another codeword, (q, n)", towards_another);
    shapes.test("random words, (q, n)", random_words);
    shapes.test("as the other ways, (q, n)", as_the_other_ways);
    shapes.test("restored words that arrive, (q, n)", arrivals);
    shapes.test("lengths, widths and shapes, (q, n)", |make, shape, random| faults(make, nearest, shape, random));
    let mut wider = Shapes::new(&mut group, make, |_, _| vec![2, 8, 31, 32]).only(|_, n| n > 4);
    wider.test("values that mislead, (q, n)", misleading);
    group.test("the shipped shape and its neighbours", move |random| shipped(make, random));
    let narrow = [(3, 2, 3), (3, 3, 2), (5, 2, 3), (5, 3, 2), (5, 4, 1), (5, 5, 1)];
    group.test_drawn("all damage to n symbols, (q, n, b)", &narrow, 1, move |shape, random| {
        small::all_damage(make, shape, random)
    });
    group.test_all_words(&[2, 3], move |shape, _| small::every_word(make, shape));
    let small = [(3, 2, 2), (3, 2, 3), (3, 3, 2), (3, 3, 5), (5, 2, 1), (5, 3, 1), (5, 4, 1), (5, 4, 2), (5, 5, 1)];
    let others = [(5, 5, 2), (5, 5, 3), (7, 6, 1), (7, 7, 1), (7, 7, 2)];
    group.test_drawn("sampled words of (q, n, b)", &[&small[..], &others].concat(), 2, move |shape, random| {
        small::sampled(make, shape, random)
    });
    group
}

fn nearest(shape: Shape, word: &[u32]) -> Call {
    Call::new(Entry::DecodeNearest, shape, &[word])
}

/// This codeword with this error: up to n - 1 symbols it comes back. With n the word is refused, since every other
/// codeword is at least as far as this one. With more, the reference says what comes.
fn expect_damaged(make: Make, shape: Shape, sent: &[u32], error: &[(usize, u32)]) -> Result<(), String> {
    let call = nearest(shape, &damaged(sent, error));
    match error.len() {
        weight if weight <= shape.most_errors() => expect(make, &call, &restored(sent, weight)),
        weight if weight == shape.n as usize => expect(make, &call, &turned_down(&call, Refusal::Far)),
        _ => expect_reference(make, &call),
    }
}

/// Weights from none to n + 2 in every style, masked ones among them, and unmasked ones.
fn weights(make: Make, shape: Shape, random: &mut Random) -> Verdict {
    let mut tried = 0;
    for weight in 0..=shape.n as usize + 2 {
        let mut errors = STYLES.map(|style| damage(style, shape, weight, random)).to_vec();
        if weight <= shape.most_errors() {
            errors.push(unmasked(shape, weight, random));
        }
        for error in errors {
            expect_damaged(make, shape, &random.codeword(shape), &error)?;
            tried += 1;
        }
    }
    Ok(tried)
}

/// A line of each direction, a column, which may be none of these, and a line of any slope.
fn lines(shape: Shape, random: &mut Random) -> Vec<Vec<usize>> {
    let q = shape.q as usize;
    let mut lines: Vec<Vec<usize>> = (0..shape.n as usize).map(|t| any_line(shape, t, random)).collect();
    for slope in [0, random.below(q)] {
        let column = random.below(q);
        lines.push((0..q).map(|row| row * q + (column + slope * row) % q).collect());
    }
    lines
}

/// Equal damage along each of the lines: to its first symbols, and to as many at any places of it.
fn stripes(make: Make, shape: Shape, random: &mut Random) -> Verdict {
    let mut tried = 0;
    for line in lines(shape, random) {
        for count in (1..=shape.n as usize + 2).map(|count| count.min(line.len())) {
            let mut anywhere = line.clone();
            random.shuffle(&mut anywhere);
            for places in [&line, &anywhere] {
                let symbol = random.nonzero_symbol(shape);
                let error: Error = places[..count].iter().map(|&j| (j, symbol)).collect();
                expect_damaged(make, shape, &random.codeword(shape), &error)?;
                tried += 1;
            }
        }
    }
    Ok(tried)
}

/// Damage to some symbols of a line that comes to nothing on its check: two symbols and more, equal or not.
fn cancelling(make: Make, shape: Shape, random: &mut Random) -> Verdict {
    let mut tried = 0;
    for mut line in lines(shape, random) {
        random.shuffle(&mut line);
        for count in 2..=shape.n as usize {
            let mut symbols: Vec<u32> = (1..count).map(|_| random.nonzero_symbol(shape)).collect();
            symbols.push(symbols.iter().fold(0, |sum, symbol| sum ^ symbol));
            // Of one bit an odd number of symbols can't come to nothing.
            if symbols[count - 1] != 0 {
                let error: Error = line.iter().copied().zip(symbols).collect();
                expect_damaged(make, shape, &random.codeword(shape), &error)?;
                tried += 1;
            }
        }
    }
    Ok(tried)
}

/// Two wrong symbols of a row, and on one more check of each a third and a fourth that make it show what the row shows:
/// at both the first value that two checks show is another than what is wrong there. All else is in later rows.
fn misleading(make: Make, shape: Shape, random: &mut Random) -> Verdict {
    let (q, rounds) = (shape.q as usize, 12);
    for _ in 0..rounds {
        let row = random.below(2);
        let later = |j: usize| j >= (row + 1) * q;
        let columns = random.positions(2, q);
        let one = random.nonzero_symbol(shape);
        let other = loop {
            let symbol = random.nonzero_symbol(shape);
            if symbol != one {
                break symbol;
            }
        };
        let mut error: Error = vec![(row * q + columns[0], one), (row * q + columns[1], other)];
        while error.len() < shape.most_errors() {
            let (place, symbol) = match error.len() {
                2 => (beside(shape, error[0].0, random), other),
                3 => (beside(shape, error[1].0, random), one),
                _ => (random.below(shape.word_len()), random.nonzero_symbol(shape)),
            };
            if later(place) && error.iter().all(|&(j, _)| j != place) {
                error.push((place, symbol));
            }
        }
        expect_damaged(make, shape, &random.codeword(shape), &error)?;
    }
    Ok(rounds)
}

/// A position on a check of this one, in any direction but that of the rows.
fn beside(shape: Shape, j: usize, random: &mut Random) -> usize {
    let t = 1 + random.below(shape.most_errors());
    random.pick(&positions_on(shape, check(shape, t, j)))
}

/// From one codeword towards another, symbol by symbol: near either end that end comes back.
fn towards(make: Make, shape: Shape, sent: &[u32], other: &[u32], random: &mut Random) -> Verdict {
    let apart = xor(sent, other);
    let mut places: Vec<usize> = (0..apart.len()).filter(|&j| apart[j] != 0).collect();
    random.shuffle(&mut places);
    let error: Error = places.iter().map(|&j| (j, apart[j])).collect();
    for count in 0..=error.len() {
        if error.len() - count <= shape.n as usize {
            expect_damaged(make, shape, other, &error[count..])?;
        } else {
            expect_damaged(make, shape, sent, &error[..count])?;
        }
    }
    Ok(error.len() as u64 + 1)
}

/// Where the two are 2n apart, a word half way is refused: it has two codewords at distance n.
fn towards_a_light_one(make: Make, shape: Shape, random: &mut Random) -> Verdict {
    let mut tried = 0;
    for _ in 0..4 {
        let (symbol, places) = (random.nonzero_symbol(shape), light(shape, random));
        let apart: Error = places.into_iter().map(|j| (j, symbol)).collect();
        if apart.len() < 2 * shape.n as usize || is_lightest(shape) && apart.len() > 2 * shape.n as usize {
            return Err(format!("{shape:?}: {} symbols are no lightest codeword", apart.len()));
        }
        let sent = random.codeword(shape);
        tried += towards(make, shape, &sent, &damaged(&sent, &apart), random)?;
    }
    Ok(tried)
}

/// The two have information symbols that differ in one place.
fn towards_another(make: Make, shape: Shape, random: &mut Random) -> Verdict {
    let mut information = random.symbols(shape, shape.data_len());
    let sent = codeword(shape, &information);
    let at = random.below(information.len());
    information[at] ^= random.nonzero_symbol(shape);
    towards(make, shape, &sent, &codeword(shape, &information), random)
}

/// Words that have nothing to do with a codeword.
fn random_words(make: Make, shape: Shape, random: &mut Random) -> Verdict {
    let rounds = 6;
    for _ in 0..rounds {
        expect_reference(make, &nearest(shape, &random.symbols(shape, shape.word_len())))?;
    }
    Ok(rounds)
}

/// Whatever one of the three ways accepts comes to the same word and number, damage that the way allows and any other.
fn as_the_other_ways(make: Make, shape: Shape, random: &mut Random) -> Verdict {
    let mut tried = 0;
    for way in 0..ways_of(shape) {
        let entry = [Entry::Decode, Entry::DecodeMajority, Entry::DecodeTwo][way as usize];
        for round in 0..8 {
            let sure = round < 4;
            let error = if sure { allowed(way, shape, random) } else { any(shape, shape.n as usize + 2, random) };
            let word = damaged(&random.codeword(shape), &error);
            let given = make(&Call::new(entry, shape, &[&word]));
            if given.answer < u64::from(shape.n) {
                expect(make, &nearest(shape, &word), &given)?;
                tried += 1;
            } else if sure {
                return Err(format!("{entry:?} refuses what it must undo: {}", nearest(shape, &word).text()));
            }
        }
    }
    Ok(tried)
}

/// The pages of a recording with any damage to at most n - 1 symbols, restored and handed in the clean way: the counts
/// are the recording's own. In between come words with n wrong symbols, which stay as they are and are refused there too.
fn arrivals(make: Make, shape: Shape, random: &mut Random) -> Verdict {
    let mut tried = 0;
    let pages = recording(shape, 6, random);
    let (mut come, mut state) = (Come::new(), fresh(shape));
    for page in arriving(&pages, 3, random) {
        let few = any(shape, shape.most_errors(), random);
        let many = damage(random.pick(&STYLES), shape, shape.n as usize, random);
        for error in [many, few] {
            let after = make(&nearest(shape, &page.damaged(shape, &error)));
            let call = arrival(CLEAN, shape, &state, &after.slices[0], random);
            if error.len() <= shape.most_errors() {
                let expected = after_arrival(&call, page, 0, &mut come);
                expect(make, &call, &expected)?;
                state.copy_from_slice(&expected.slices[0]);
            } else {
                let mut expected = turned_down(&call, Refusal::Uncorrectable);
                expected.slices[2].fill(0);
                expect(make, &call, &expected)?;
            }
            tried += 1;
        }
    }
    if state[CALLS_AT..] != own_tally(&pages) {
        return Err(format!("{shape:?}: the counts are not the recording's"));
    }
    Ok(tried)
}

/// Order 17 with four directions and slopes 0, 1, 2, whatever the slopes past the third, and shapes that differ from it
/// in one number: what is read may not depend on where the check numbers come from.
fn shipped(make: Make, random: &mut Random) -> Verdict {
    let anything = [u32::MAX, 17, 1, 2];
    let mut tried = 0;
    for (n, slopes) in [(4, [0, 1, 2]), (3, [0, 1, 2]), (4, [0, 1, 3]), (4, [0, 2, 1]), (4, [1, 0, 2])] {
        for b in [1, 8, 32] {
            let slopes = [&slopes[..], &anything].concat();
            let shape = Shape::new(17, n, b).with_slopes(slopes.try_into().expect("seven of them"));
            tried += weights(make, shape, random)? + stripes(make, shape, random)?;
        }
    }
    Ok(tried)
}
