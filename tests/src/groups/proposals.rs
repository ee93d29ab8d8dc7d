//! Words that somebody else restored, against the words that were received. What must come is said here where
//! the case itself settles it, by trying every error where these are few, and by the reference elsewhere.

use super::elsewhere::{any_session, fresh};
use super::every::Shapes;
use super::expect::{expect, expect_reference};
use crate::call::{answer_of, After, Call, Entry, Make};
use crate::capture::{page_numbers, Page};
use crate::damage::{damaged, make as damage, spelled_out, unmasked, Style, STYLES};
use crate::random::Random;
use crate::reference::brute::{all_codewords, all_words, explanations};
use crate::reference::session::CLEAN;
use crate::reference::shape::{Refusal, Shape};
use crate::reference::square::is_unmasked;
use crate::report::{Group, Unit, Verdict};

/// The group for whichever makes the calls.
pub fn group(name: String, make: Make) -> Group {
    let mut group = Group::new(name, Unit::Calls);
    let mut shapes = Shapes::new(&mut group, make, |_, _| vec![1, 8, 11, 31, 32]);
    shapes.test("right ones, (q, n)", right);
    shapes.test("near ones, (q, n)", near);
    shapes.test("masked or too much difference, (q, n)", masked_or_many);
    shapes.test("any damage, any codeword, (q, n)", anything);
    shapes.test("lengths and widths, (q, n)", lengths_and_widths);
    shapes.test("arrivals, (q, n)", arrivals);
    group.test_all_words(&[2, 3], move |shape, _| every_pair(make, shape));
    group
}

fn check(shape: Shape, received: &[u32], proposed: &[u32]) -> Call {
    Call::new(Entry::Check, shape, &[received, proposed])
}

/// This answer, and both words as lent.
fn expect_answer(make: Make, call: &Call, answer: Result<u32, Refusal>) -> Result<(), String> {
    expect(make, call, &After { answer: answer_of(answer), slices: call.slices.clone() })
}

/// The sent word for damage that reading undoes: yes, and reading gives just that word.
fn right(make: Make, shape: Shape, random: &mut Random) -> Verdict {
    let mut tried = 0;
    for weight in 0..=shape.most_errors() {
        for _ in 0..4 {
            let sent = random.codeword(shape);
            let received = damaged(&sent, &unmasked(shape, weight, random));
            expect_answer(make, &check(shape, &received, &sent), Ok(1))?;
            let read = make(&Call::new(Entry::Decode, shape, &[&received]));
            if read.answer != weight as u64 || read.slices[0] != sent {
                return Err(format!("{shape:?}: reading does not give the proposal that gets yes"));
            }
            tried += 2;
        }
    }
    Ok(tried)
}

/// The sent word with one symbol changed, and the received word itself: no codewords, unless undamaged.
fn near(make: Make, shape: Shape, random: &mut Random) -> Verdict {
    let mut tried = 0;
    for weight in 0..=shape.most_errors() {
        let sent = random.codeword(shape);
        let error = unmasked(shape, weight, random);
        let received = damaged(&sent, &error);
        expect_answer(make, &check(shape, &received, &received), Ok(u32::from(weight == 0)))?;
        let elsewhere = damage(Style::Spread, shape, 1, random);
        let partly = error.iter().map(|&wrong| vec![wrong]);
        for change in partly.chain([elsewhere]) {
            expect_answer(make, &check(shape, &received, &damaged(&sent, &change)), Ok(0))?;
            tried += 1;
        }
        tried += 1;
    }
    Ok(tried)
}

/// The sent word is a codeword, but the damage is masked, or stands on n symbols and more: no.
fn masked_or_many(make: Make, shape: Shape, random: &mut Random) -> Verdict {
    let mut tried = 0;
    for weight in 2..=shape.n as usize + 2 {
        for style in STYLES {
            let error = damage(style, shape, weight, random);
            let clean = is_unmasked(shape, &spelled_out(shape, &error));
            if clean && weight <= shape.most_errors() {
                continue;
            }
            let sent = random.codeword(shape);
            expect_answer(make, &check(shape, &damaged(&sent, &error), &sent), Ok(0))?;
            tried += 1;
        }
    }
    let sent = random.codeword(shape);
    let error = unmasked(shape, shape.n as usize, random);
    expect_answer(make, &check(shape, &damaged(&sent, &error), &sent), Ok(0))?;
    Ok(tried + 1)
}

/// Another codeword, and words that are none, by the reference.
fn anything(make: Make, shape: Shape, random: &mut Random) -> Verdict {
    let mut tried = 0;
    for weight in 0..=shape.n as usize + 2 {
        let sent = random.codeword(shape);
        let style = random.pick(&STYLES);
        let received = damaged(&sent, &damage(style, shape, weight, random));
        let others = [sent, random.codeword(shape), random.symbols(shape, shape.word_len()), received.clone()];
        for proposed in others {
            for call in [check(shape, &received, &proposed), check(shape, &proposed, &received)] {
                expect_reference(make, &call)?;
                tried += 1;
            }
        }
    }
    Ok(tried)
}

/// A wrong length of either is 2, whatever the symbols; then a wide symbol in either is 3.
fn lengths_and_widths(make: Make, shape: Shape, random: &mut Random) -> Verdict {
    let mut tried = 0;
    let sent = random.codeword(shape);
    let received = damaged(&sent, &unmasked(shape, shape.most_errors(), random));
    let right = check(shape, &received, &sent);
    for i in 0..2 {
        let length = shape.word_len();
        for other in [0, length - 1, length + 1, 2 * length] {
            let mut call = right.clone();
            call.slices[i].resize(other, u32::MAX);
            expect_answer(make, &call, Err(Refusal::Length))?;
            call.slices[1 - i][0] = u32::MAX;
            expect_answer(make, &call, Err(Refusal::Length))?;
            tried += 2;
        }
        for at in [0, random.below(length), length - 1].into_iter().filter(|_| shape.b < 32) {
            for wide in [shape.largest() + 1, u32::MAX] {
                let mut call = right.clone();
                call.slices[i][at] = wide;
                expect_answer(make, &call, Err(Refusal::Width))?;
                tried += 1;
            }
        }
    }
    Ok(tried)
}

/// Proposals that get yes in place of the received words, from a fresh session and from one that comes from
/// elsewhere: after each arrival the same session, and the same outcome but for the symbols changed.
fn arrivals(make: Make, shape: Shape, random: &mut Random) -> Verdict {
    let mut tried = 0;
    for start in [fresh(shape), any_session(shape, random)] {
        let mut sessions = [start.clone(), start];
        for _ in 0..6 {
            let page = Page::random(shape, random.below(page_numbers(shape).min(4)) as u32, random);
            let sent = page.codeword(shape);
            let weight = random.below(shape.n as usize);
            let received = damaged(&sent, &unmasked(shape, weight, random));
            expect_answer(make, &check(shape, &received, &sent), Ok(1))?;
            let scratch = random.numbers(shape.scratch_len());
            let mut outcomes = vec![];
            for (session, word) in sessions.iter_mut().zip([&received, &sent]) {
                let call = Call::numbered(Entry::Arrive, shape, CLEAN, &[session, word, &scratch, &[9; 3]]);
                let after = make(&call);
                session.copy_from_slice(&after.slices[0]);
                outcomes.push(after.slices[3][..2].to_vec());
            }
            if sessions[0] != sessions[1] || outcomes[0] != outcomes[1] {
                return Err(format!("{shape:?}: an arrival of the proposal ends otherwise: {outcomes:?}"));
            }
            tried += 3;
        }
    }
    Ok(tried)
}

/// Every received word with every codeword and with itself: yes exactly for what explains it.
fn every_pair(make: Make, shape: Shape) -> Verdict {
    let codewords = all_codewords(shape);
    let mut tried = 0;
    for received in all_words(shape) {
        let found = explanations(shape, &received);
        for proposed in codewords.iter().chain([&received]) {
            let explains = found.iter().any(|(word, _)| word == proposed);
            expect_answer(make, &check(shape, &received, proposed), Ok(explains.into()))?;
            tried += 1;
        }
    }
    Ok(tried)
}
