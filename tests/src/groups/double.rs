//! Two wrong symbols, whether they cancel on a check or not. What must come is said here where the case itself
//! settles it, by trying every codeword where these are few, and by the reference elsewhere.

use super::calls::{resized, turned_down};
use super::every::{Shapes, WIDTHS};
use super::expect::{expect, expect_nearest, expect_reference, restored};
use crate::call::{Call, Entry, Make};
use crate::damage::{apply, damaged, make as damage, unmasked, Style, STYLES};
use crate::random::Random;
use crate::reference::brute::{all_codewords, all_words};
use crate::reference::shape::{Refusal, Shape};
use crate::reference::square::positions_on;
use crate::report::{Group, Unit, Verdict};

/// The group for whichever makes the calls.
pub fn group(name: String, make: Make) -> Group {
    let mut group = Group::new(name, Unit::Words);
    let mut two = Shapes::new(&mut group, make, WIDTHS).only(|_, n| n == 2);
    two.test("two directions, (q, n)", two_directions);
    let mut more = Shapes::new(&mut group, make, WIDTHS).only(|_, n| n > 2);
    more.test("pairs on one line, (q, n)", on_one_line);
    more.test("at most two, (q, n)", at_most_two);
    more.test("three and more, (q, n)", three_and_more);
    more.test("random words, (q, n)", random_words);
    more.test("as clean reading, (q, n)", as_clean_reading);
    more.test("lengths, (q, n)", lengths);
    more.test("widths, (q, n)", widths);
    more.only(|q, _| q <= 5).test("all pairs of places, (q, n)", all_pairs);
    group.test_all_words(&[3], move |shape, _| every_word(make, shape));
    let small = [(3, 3, 2), (3, 3, 4), (5, 3, 1), (5, 4, 1), (5, 5, 1), (5, 5, 2), (7, 6, 1), (7, 7, 2)];
    group.test_drawn("sampled words of (q, n, b)", &small, 1, move |shape, random| sampled(make, shape, random));
    group
}

fn call(shape: Shape, word: &[u32]) -> Call {
    Call::new(Entry::DecodeTwo, shape, &[word])
}

/// Equal symbols cancel on a check that both are on, unequal ones show their XOR there.
fn two_symbols(shape: Shape, random: &mut Random) -> Vec<(u32, u32)> {
    let first = random.nonzero_symbol(shape);
    let second = random.nonzero_symbol(shape);
    if first == second {
        vec![(first, second)]
    } else {
        vec![(first, first), (first, second)]
    }
}

/// A codeword with these symbols XORed onto these two places: it is restored, with two changed.
fn expect_pair(make: Make, shape: Shape, (i, j): (usize, usize), random: &mut Random) -> Verdict {
    let sent = random.codeword(shape);
    let pairs = two_symbols(shape, random);
    for &(first, second) in &pairs {
        let word = damaged(&sent, &[(i, first), (j, second)]);
        expect(make, &call(shape, &word), &restored(&sent, 2))?;
    }
    Ok(pairs.len() as u64)
}

fn all_pairs(make: Make, shape: Shape, random: &mut Random) -> Verdict {
    let mut tried = 0;
    for j in 0..shape.word_len() {
        for i in 0..j {
            tried += expect_pair(make, shape, (i, j), random)?;
        }
    }
    Ok(tried)
}

/// Two places of each line of each direction: neighbours, the ends, any two.
fn on_one_line(make: Make, shape: Shape, random: &mut Random) -> Verdict {
    let mut tried = 0;
    let (q, n) = (shape.q as usize, shape.n as usize);
    for (t, line) in (0..n).flat_map(|t| (0..q).map(move |line| (t, line))) {
        let places = positions_on(shape, t * q + line);
        let any = random.positions(2, q);
        for (a, b) in [(line, (line + 1) % q), (0, q - 1), (any[0], any[1])] {
            tried += expect_pair(make, shape, (places[a], places[b]), random)?;
        }
    }
    Ok(tried)
}

/// None, one or two wrong symbols in every style.
fn at_most_two(make: Make, shape: Shape, random: &mut Random) -> Verdict {
    let mut tried = 0;
    for _ in 0..rounds(shape) {
        for (style, weight) in STYLES.into_iter().flat_map(|style| (0..3).map(move |weight| (style, weight))) {
            let sent = random.codeword(shape);
            let word = damaged(&sent, &damage(style, shape, weight, random));
            expect(make, &call(shape, &word), &restored(&sent, weight))?;
            tried += 1;
        }
    }
    Ok(tried)
}

/// Three wrong symbols or four: the sent word is not given, since it is too far; a nearer codeword or 17 is.
fn three_and_more(make: Make, shape: Shape, random: &mut Random) -> Verdict {
    let mut tried = 0;
    for _ in 0..rounds(shape) {
        for (style, weight) in STYLES.into_iter().flat_map(|style| [3, 4].map(|weight| (style, weight))) {
            let word = damaged(&random.codeword(shape), &damage(style, shape, weight, random));
            let call = call(shape, &word);
            let expected = call.on_reference();
            if weight == 3 && expected != turned_down(&call, Refusal::BeyondTwo) {
                return Err(format!("{}: a codeword within two symbols, though six part them", call.text()));
            }
            expect(make, &call, &expected)?;
            tried += 1;
        }
    }
    Ok(tried)
}

/// Small words are read more often, since they cost less.
fn rounds(shape: Shape) -> u32 {
    (1_000 / (shape.q * shape.q)).clamp(2, 40)
}

/// Words that have nothing to do with a codeword, and codewords with damage all over.
fn random_words(make: Make, shape: Shape, random: &mut Random) -> Verdict {
    let tried = rounds(shape);
    for _ in 0..tried {
        let call = call(shape, &random.symbols(shape, shape.word_len()));
        expect_reference(make, &call)?;
    }
    Ok(tried.into())
}

/// Where clean reading changes at most two symbols, the answer and the word are the same.
fn as_clean_reading(make: Make, shape: Shape, random: &mut Random) -> Verdict {
    let mut tried = 0;
    for _ in 0..rounds(shape) {
        for weight in 0..3 {
            let word = damaged(&random.codeword(shape), &unmasked(shape, weight, random));
            let clean = make(&Call::new(Entry::Decode, shape, &[&word]));
            if clean.answer != weight as u64 {
                return Err(format!("{}: clean reading refuses it", call(shape, &word).text()));
            }
            expect(make, &call(shape, &word), &clean)?;
            tried += 1;
        }
    }
    Ok(tried)
}

/// A word of every kind of length, with symbols that fit or not: 2.
fn lengths(make: Make, shape: Shape, random: &mut Random) -> Verdict {
    let right = shape.word_len();
    let wrong = [0, 1, shape.q as usize, right - 1, right + 1, 4 * right];
    for length in wrong {
        for filler in [shape.largest(), u32::MAX] {
            let mut word = resized(&random.codeword(shape), length, random);
            word.iter_mut().take(1).for_each(|symbol| *symbol = filler);
            let call = call(shape, &word);
            expect(make, &call, &turned_down(&call, Refusal::Length))?;
        }
    }
    Ok(2 * wrong.len() as u64)
}

/// One symbol that is too large: 3, whatever else is wrong with the word.
fn widths(make: Make, shape: Shape, random: &mut Random) -> Verdict {
    let Some(large) = shape.largest().checked_add(1) else { return Ok(0) };
    let mut tried = 0;
    for at in [0, random.below(shape.word_len()), shape.word_len() - 1] {
        for (weight, value) in [(0, large), (2, large), (3, u32::MAX)] {
            let mut word = damaged(&random.codeword(shape), &damage(Style::Spread, shape, weight, random));
            word[at] = value;
            let call = call(shape, &word);
            expect(make, &call, &turned_down(&call, Refusal::Width))?;
            tried += 1;
        }
    }
    Ok(tried)
}

/// 16 for every word: whole ones, damaged ones, such as 2 or 3 would come of.
fn two_directions(make: Make, shape: Shape, random: &mut Random) -> Verdict {
    let sent = random.codeword(shape);
    let damaged = damaged(&sent, &damage(Style::Spread, shape, 2, random));
    let mut wide = sent.clone();
    wide[0] = u32::MAX;
    let short = resized(&sent, sent.len() - 1, random);
    let long = resized(&wide, sent.len() + 1, random);
    let words = [sent, damaged, wide, short, long, vec![]];
    for word in &words {
        let call = call(shape, word);
        expect(make, &call, &turned_down(&call, Refusal::Directions))?;
    }
    Ok(words.len() as u64)
}

/// What the definition says: the one codeword within two symbols, or 17.
fn expect_near(make: Make, call: &Call, codewords: &[Vec<u32>]) -> Result<(), String> {
    expect_nearest(make, call, codewords, 2, Refusal::BeyondTwo)
}

/// All 2^9 words.
fn every_word(make: Make, shape: Shape) -> Verdict {
    let codewords = all_codewords(shape);
    let words = all_words(shape);
    for word in &words {
        expect_near(make, &call(shape, word), &codewords)?;
    }
    Ok(words.len() as u64)
}

/// Codewords with up to five wrong symbols, and words of any kind.
fn sampled(make: Make, shape: Shape, random: &mut Random) -> Verdict {
    let rounds = 150;
    let codewords = all_codewords(shape);
    for _ in 0..rounds {
        let mut word = random.codeword(shape);
        let (style, weight) = (random.pick(&STYLES), random.below(6));
        apply(&damage(style, shape, weight, random), &mut word);
        if random.one_in(8) {
            word = random.symbols(shape, shape.word_len());
        }
        expect_near(make, &call(shape, &word), &codewords)?;
    }
    Ok(rounds)
}
