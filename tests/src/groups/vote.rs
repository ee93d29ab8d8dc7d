//! Reading by vote: stripes of equal damage, every weight, masked and not, and every word of small shapes. What must come
//! is said here where the damage settles it, by trying every codeword where these are few, and by the reference elsewhere.

use super::every::{faults, Shapes, WIDTHS};
use super::expect::{expect, expect_nearest, expect_reference, restored};
use crate::call::{Call, Entry, Make};
use crate::damage::{any_line, damaged, make as damage, unmasked, Error, STYLES};
use crate::random::Random;
use crate::reference::brute::{all_codewords, all_words};
use crate::reference::shape::{Refusal, Shape};
use crate::reference::writer::codeword;
use crate::report::{Group, Unit, Verdict};

/// The group for whichever makes the calls.
pub fn group(name: String, make: Make) -> Group {
    let mut group = Group::new(name, Unit::Words);
    let mut shapes = Shapes::new(&mut group, make, WIDTHS);
    shapes.test("stripes, (q, n)", stripes);
    shapes.test("every weight, (q, n)", weights);
    shapes.test("other codewords, (q, n)", other_codewords);
    shapes.test("random words, (q, n)", random_words);
    shapes.test("lengths, widths and shapes, (q, n)", |make, shape, random| faults(make, vote, shape, random));
    group.test_all_words(&[2, 3], move |shape, _| every_word(make, shape));
    let small = [(3, 2, 2), (3, 2, 3), (3, 3, 3), (5, 4, 1), (5, 5, 1), (5, 5, 2), (7, 6, 1), (7, 7, 2)];
    group.test_drawn("sampled words of (q, n, b)", &small, 4, move |shape, random| sampled(make, shape, random));
    group
}

fn vote(shape: Shape, word: &[u32]) -> Call {
    Call::new(Entry::DecodeMajority, shape, &[word])
}

/// A codeword with this error: up to n/2 symbols it comes back. With more, the reference says what comes.
fn expect_damaged(make: Make, shape: Shape, error: &Error, random: &mut Random) -> Result<(), String> {
    let sent = random.codeword(shape);
    let call = vote(shape, &damaged(&sent, error));
    if error.len() <= shape.most_votes() {
        expect(make, &call, &restored(&sent, error.len()))
    } else {
        expect_reference(make, &call)
    }
}

/// Equal damage along a line of each direction: its first symbols, from one to all, and as many at any places of it.
fn stripes(make: Make, shape: Shape, random: &mut Random) -> Verdict {
    let mut tried = 0;
    for t in 0..shape.n as usize {
        let on_line = any_line(shape, t, random);
        for count in (1..=shape.n as usize).chain([shape.q as usize]) {
            let mut anywhere = on_line.clone();
            random.shuffle(&mut anywhere);
            for places in [&on_line, &anywhere] {
                let symbol = random.nonzero_symbol(shape);
                let error: Error = places[..count].iter().map(|&j| (j, symbol)).collect();
                expect_damaged(make, shape, &error, random)?;
                tried += 1;
            }
        }
    }
    Ok(tried)
}

/// Weights from none to n in every style, masked ones among them, and unmasked ones.
fn weights(make: Make, shape: Shape, random: &mut Random) -> Verdict {
    let mut tried = 0;
    for weight in 0..=shape.n as usize {
        let mut errors = STYLES.map(|style| damage(style, shape, weight, random)).to_vec();
        if weight <= shape.most_errors() {
            errors.push(unmasked(shape, weight, random));
        }
        for error in errors {
            expect_damaged(make, shape, &error, random)?;
            tried += 1;
        }
    }
    Ok(tried)
}

/// Damage that goes from one codeword towards another, as far as half the way and further.
fn other_codewords(make: Make, shape: Shape, random: &mut Random) -> Verdict {
    let mut information = vec![0; shape.data_len()];
    let at = random.below(information.len());
    information[at] = random.nonzero_symbol(shape);
    let apart = codeword(shape, &information);
    let mut places: Vec<usize> = (0..apart.len()).filter(|&j| apart[j] != 0).collect();
    random.shuffle(&mut places);
    let mut tried = 0;
    for count in 0..=places.len() {
        let error: Error = places[..count].iter().map(|&j| (j, apart[j])).collect();
        expect_damaged(make, shape, &error, random)?;
        tried += 1;
    }
    Ok(tried)
}

/// Words that have nothing to do with a codeword.
fn random_words(make: Make, shape: Shape, random: &mut Random) -> Verdict {
    let rounds = 6;
    for _ in 0..rounds {
        let call = vote(shape, &random.symbols(shape, shape.word_len()));
        expect_reference(make, &call)?;
    }
    Ok(rounds)
}

/// What the definition says: the codeword that is near enough, if there is one.
fn expect_near(make: Make, call: &Call, codewords: &[Vec<u32>]) -> Result<(), String> {
    expect_nearest(make, call, codewords, call.shape.most_votes(), Refusal::NoMajority)
}

/// All 2^9 words.
fn every_word(make: Make, shape: Shape) -> Verdict {
    let codewords = all_codewords(shape);
    let words = all_words(shape);
    for word in &words {
        expect_near(make, &vote(shape, word), &codewords)?;
    }
    Ok(words.len() as u64)
}

/// Damage of any weight up to n.
fn sampled(make: Make, shape: Shape, random: &mut Random) -> Verdict {
    let rounds = 60;
    let codewords = all_codewords(shape);
    for _ in 0..rounds {
        let sent = &codewords[random.below(codewords.len())];
        let weight = random.below(shape.n as usize + 1);
        let error = damage(random.pick(&STYLES), shape, weight, random);
        expect_near(make, &vote(shape, &damaged(sent, &error)), &codewords)?;
    }
    Ok(rounds)
}
