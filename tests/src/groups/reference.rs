//! The reference against the rules' own statements, and two of its readers against trying everything.

use super::faults::{EXAMPLE, SHAPE};
use super::idle::CAPTURES;
use crate::capture::heading;
use crate::damage::{damaged, list, make, unmasked, Style, STYLES};
use crate::random::Random;
use crate::reference::brute::{all_explained, all_words, explanations, nearby, Explanation};
use crate::reference::elimination::Positions;
use crate::reference::filler::{agreeing, Agreeing};
use crate::reference::nearest::decode_nearest;
use crate::reference::program::tally;
use crate::reference::reader::decode;
use crate::reference::shape::{Refusal, Shape};
use crate::reference::square::{checks_on, is_codeword};
use crate::reference::writer::{codeword, information};
use crate::report::{Group, Unit, Verdict};
use crate::rivals::elimination;

pub fn group() -> Group {
    let mut group = Group::new("reference", Unit::Calls);
    group.test_each("checks of (q, n)", |q, n, _| checks(Shape::new(q, n, 1)));
    group.test_each("checks of (q, n), other slopes", |q, n, random| checks(random.sloped(q, n, 1)));
    group.test_shapes("positions of (q, n)", |_, _| vec![32; 20], positions);
    group.test_shapes("unmasked errors of (q, n)", |_, _| vec![1, 2, 8, 32], restores);
    group.test_each("codewords that agree, (q, n)", codewords_that_agree);
    group.test_all_words(&[2, 3], |shape, _| every_word(shape));
    let small = [(3, 2, 2), (3, 3, 2), (3, 3, 3), (5, 2, 1), (5, 3, 1), (5, 4, 1), (5, 5, 1), (7, 2, 1), (7, 3, 1)];
    group.test_drawn("sampled words of (q, n, b)", &small, 150, sampled);
    group.test("the rules' capture", |_| example());
    group.test("captures with idle marks", |_| idle_captures());
    group
}

fn require(holds: bool, claim: &str) -> Result<(), String> {
    if holds {
        Ok(())
    } else {
        Err(format!("not so: {claim}"))
    }
}

/// Each check has q symbols; two different symbols share at most one check.
fn checks(shape: Shape) -> Verdict {
    let on: Vec<Vec<usize>> = (0..shape.word_len()).map(|j| checks_on(shape, j).collect()).collect();
    for check in 0..shape.checks() {
        let symbols = on.iter().filter(|checks| checks.contains(&check)).count();
        require(symbols == shape.q as usize, "each check has q symbols")?;
    }
    for (j, left) in on.iter().enumerate() {
        for right in &on[..j] {
            let shared = left.iter().zip(right).filter(|(x, y)| x == y).count();
            require(shared <= 1, "two symbols share at most one check")?;
        }
    }
    Ok(shape.word_len() as u64)
}

fn positions(shape: Shape, random: &mut Random) -> Verdict {
    let found = Positions::of(shape);
    require(found.parity.len() == shape.checks() - shape.most_errors(), "n×q - (n-1) parity positions")?;
    require(found.information.len() == shape.data_len(), "K information positions")?;
    let data = random.symbols(shape, shape.data_len());
    let word = codeword(shape, &data);
    require(is_codeword(shape, &word), "what is written is a codeword")?;
    require(information(shape, &word) == data, "what is written is found again")?;
    Ok(1)
}

/// Reading undoes every unmasked error of weight up to n - 1 and counts its symbols.
fn restores(shape: Shape, random: &mut Random) -> Verdict {
    let sent = random.codeword(shape);
    for weight in 0..=shape.most_errors() {
        let mut word = damaged(&sent, &unmasked(shape, weight, random));
        require(decode(shape, &mut word) == Ok(weight as u32), "an unmasked error is counted")?;
        require(word == sent, "an unmasked error is undone")?;
    }
    Ok(shape.n.into())
}

/// With any list of places, what is said to agree does, and elimination by rows says the same.
fn codewords_that_agree(q: u32, n: u32, random: &mut Random) -> Verdict {
    let rounds = 30;
    for _ in 0..rounds {
        let shape = Shape::new(q, n, random.pick(&[1, 8, 32]));
        let most = random.pick(&[shape.n as usize + 3, shape.checks(), shape.word_len()]).min(shape.word_len());
        let count = random.below(most + 1);
        let places = list(random.positions(count, shape.word_len()));
        let sent = random.codeword(shape);
        let word = damaged(&sent, &make(Style::Spread, shape, random.below(3), random));
        let agrees = |other: &Vec<u32>| {
            let same = |j: usize| other[j] == word[j] || places.contains(&(j as u32));
            is_codeword(shape, other) && (0..word.len()).all(same)
        };
        let found = agreeing(shape, &places, &word);
        let (answer, left) = match &found {
            Agreeing::None => (Refusal::Unfillable.number(), &word),
            Agreeing::One(only) => (0, only),
            Agreeing::Several(..) => (Refusal::Ambiguous.number(), &word),
        };
        let holds = match &found {
            Agreeing::None => true,
            Agreeing::One(only) => agrees(only),
            Agreeing::Several(one, another) => agrees(one) && agrees(another) && one != another,
        };
        require(holds, "what is said to agree does")?;
        let (mut by_rows, mut scratch) = (word.clone(), vec![0; shape.scratch_len()]);
        let rest = elimination::fill(shape, &places, &mut by_rows, &mut scratch).checked_sub(1 << 31);
        require(rest.unwrap_or(0) == answer && by_rows == *left, "elimination by rows says the same")?;
    }
    Ok(rounds)
}

/// What a way of reading must give for a word with these explanations, or without one.
fn agrees(
    read: fn(Shape, &mut [u32]) -> Result<u32, Refusal>,
    refusal: Refusal,
    shape: Shape,
    received: &[u32],
    explained: &[Explanation],
) -> Result<(), String> {
    require(explained.windows(2).all(|pair| pair[0] == pair[1]), "a word has at most one explanation")?;
    let mut word = received.to_vec();
    let expected = match explained.first() {
        Some((codeword, weight)) => (Ok(*weight as u32), codeword.clone()),
        None => (Err(refusal), received.to_vec()),
    };
    let found = (read(shape, &mut word), word);
    if found == expected {
        Ok(())
    } else {
        Err(format!("{shape:?} {received:?}: {found:?}, by the definition {expected:?}"))
    }
}

fn every_word(shape: Shape) -> Verdict {
    let all = all_explained(shape);
    let words = all_words(shape);
    for received in &words {
        let explained: Vec<Explanation> =
            all.iter().filter(|(word, _)| word == received).map(|(_, by)| by.clone()).collect();
        agrees(decode, Refusal::Uncorrectable, shape, received, &explained)?;
        agrees(decode_nearest, Refusal::Far, shape, received, &nearby(shape, received))?;
    }
    Ok(words.len() as u64)
}

fn sampled(shape: Shape, random: &mut Random) -> Verdict {
    let sent = random.codeword(shape);
    let (style, weight) = (random.pick(&STYLES), random.below(shape.n as usize + 3));
    let received = damaged(&sent, &make(style, shape, weight, random));
    agrees(decode, Refusal::Uncorrectable, shape, &received, &explanations(shape, &received))?;
    agrees(decode_nearest, Refusal::Far, shape, &received, &nearby(shape, &received))?;
    Ok(1)
}

fn example() -> Verdict {
    let (input, output) = EXAMPLE;
    require(tally(input.as_bytes()) == output.as_bytes(), "the rules' output")?;
    Ok(1)
}

fn idle_captures() -> Verdict {
    for (words, below) in CAPTURES {
        let input = heading(SHAPE) + words;
        let output = format!("outcome page fixed\n{below}");
        require(tally(input.as_bytes()) == output.as_bytes(), &format!("{words:?} has {below:?}"))?;
    }
    Ok(CAPTURES.len() as u64)
}
