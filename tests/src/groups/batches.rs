//! Bundles of words. What must come of each is said by single arrivals of whichever makes the calls, one
//! after the other, and by the case itself: which words are refused, and whose tally the session ends with.

use super::calls::{bad_slope, reshaped, turned_down, with_length};
use super::elsewhere::{any_calls, any_marks, figures, fresh, session, Come};
use super::every::{Shapes, Widths};
use super::expect::expect;
use crate::call::{After, Call, Entry, Make};
use crate::capture::{own_tally, recording, Page};
use crate::damage::{allowed, apply, make as damage, Style};
use crate::random::Random;
use crate::reference::page::PAGES;
use crate::reference::session::{ways_of, BUNDLE, CALLS_AT, OUTCOMES_LEN, PAGES_AT, WAYS};
use crate::reference::shape::{Refusal, Shape};
use crate::report::{Group, Unit, Verdict};

/// A narrow and a wide one, which are drawn.
const WIDTHS: Widths = |_, random| vec![random.pick(&[1, 3, 8]), random.pick(&[11, 31, 32])];

/// The group for whichever makes the calls.
pub fn group(name: String, make: Make) -> Group {
    let mut group = Group::new(name, Unit::Calls);
    let mut shapes = Shapes::new(&mut group, make, WIDTHS);
    let mut test = |name: &str, body: fn(Make, Shape, u32, &mut Random) -> Verdict| {
        shapes.test(name, move |make, shape, random| of_ways(make, shape, body, random));
    };
    test("of any words, (q, n)", any_words);
    test("of wrong lengths, (q, n)", wrong_lengths);
    test("with another fault, (q, n)", with_another_fault);
    test("with a refused word, (q, n)", with_a_refused_word);
    test("with repeats, (q, n)", with_repeats);
    test("that wear a count out, (q, n)", worn);
    test("of a recording, (q, n)", recordings);
    let some = [(3, 2, 8), (3, 3, 32), (5, 3, 16), (7, 7, 11), (17, 4, 32), (31, 8, 32)];
    for words in [1, 2, 63, 64, 65] {
        let name = format!("of {words} words, (q, n, b)");
        group.test_drawn(&name, &some, 1, move |shape, random| of_size(make, shape, words, random));
    }
    group
}

/// Every way that the shape has.
fn of_ways(
    make: Make,
    shape: Shape,
    body: fn(Make, Shape, u32, &mut Random) -> Verdict,
    random: &mut Random,
) -> Verdict {
    (0..ways_of(shape)).try_fold(0, |tried, way| Ok(tried + body(make, shape, way, random)?))
}

/// The call with these words, and old numbers in what it only writes to.
fn bundle(shape: Shape, way: u32, session: &[u32], words: &[Vec<u32>], random: &mut Random) -> Call {
    let scratch = random.numbers(shape.scratch_len());
    let outcomes = random.numbers(OUTCOMES_LEN);
    Call::numbered(Entry::Batch, shape, way, &[session, &words.concat(), &scratch, &outcomes])
}

/// What the single arrivals leave, first word first.
fn singles(make: Make, call: &Call) -> After {
    let (mut session, mut scratch) = (call.slices[0].clone(), call.slices[2].clone());
    let (mut words, mut outcomes) = (vec![], vec![]);
    for word in call.slices[1].chunks_exact(call.shape.word_len()) {
        let single = Call::numbered(Entry::Arrive, call.shape, call.number, &[&session, word, &scratch, &[9; 3]]);
        let after = make(&single);
        session.copy_from_slice(&after.slices[0]);
        words.extend(&after.slices[1]);
        scratch.copy_from_slice(&after.slices[2]);
        outcomes.extend(&after.slices[3]);
    }
    outcomes.resize(OUTCOMES_LEN, 0);
    After { answer: 0, slices: vec![session, words, scratch, outcomes] }
}

/// The call against single arrivals; what it leaves.
fn follow(make: Make, call: &Call) -> Result<After, String> {
    let expected = singles(make, call);
    expect(make, call, &expected)?;
    if expected.slices[2].iter().any(|&value| value != 0) {
        return Err(format!("{}: the scratch is left in use", call.text()));
    }
    Ok(expected)
}

/// A session from elsewhere with right figures, of which few pages have come.
fn few_pages(shape: Shape, random: &mut Random) -> Vec<u32> {
    let come: Come = (0..PAGES as u32).filter(|_| random.one_in(8)).collect();
    session(shape, figures(&come), &any_marks(&come, random), &any_calls(random))
}

/// A page with damage that this way undoes.
fn readable(shape: Shape, way: u32, page: &Page, random: &mut Random) -> Vec<u32> {
    let error = allowed(way, shape, random);
    page.damaged(shape, &error)
}

/// A page with too much damage for most ways, a page number or a tail that can't be, any symbols.
fn doubtful(shape: Shape, random: &mut Random) -> Vec<u32> {
    let mut word = Page::any(shape, random).codeword(shape);
    let style = random.pick(&[Style::Spread, Style::Masked, Style::Equal]);
    match random.below(4) {
        0 => word[random.below(shape.word_len())] = u32::MAX,
        1 => word = random.symbols(shape, shape.word_len()),
        _ => {
            let weight = random.below(shape.n as usize + 3).min(shape.word_len());
            apply(&damage(style, shape, weight, random), &mut word);
        }
    }
    word
}

fn any_word(shape: Shape, way: u32, random: &mut Random) -> Vec<u32> {
    if random.one_in(2) {
        return doubtful(shape, random);
    }
    let page = Page::any(shape, random);
    readable(shape, way, &page, random)
}

fn any_words(make: Make, shape: Shape, way: u32, random: &mut Random) -> Verdict {
    for _ in 0..6 {
        let count = 1 + random.below(6);
        let words: Vec<Vec<u32>> = (0..count).map(|_| any_word(shape, way, random)).collect();
        let session = few_pages(shape, random);
        follow(make, &bundle(shape, way, &session, &words, random))?;
    }
    Ok(6)
}

/// 64 words at most; 65 are 2.
fn of_size(make: Make, shape: Shape, count: usize, random: &mut Random) -> Verdict {
    for way in 0..ways_of(shape) {
        let words: Vec<Vec<u32>> = (0..count).map(|_| any_word(shape, way, random)).collect();
        let session = few_pages(shape, random);
        let call = bundle(shape, way, &session, &words, random);
        if count <= BUNDLE {
            follow(make, &call)?;
        } else {
            expect(make, &call, &turned_down(&call, Refusal::Length))?;
        }
    }
    Ok(ways_of(shape).into())
}

/// No word, ragged runs, scratches and lists of outcomes that are too short or too long: 2, all as lent.
fn wrong_lengths(make: Make, shape: Shape, way: u32, random: &mut Random) -> Verdict {
    let mut tried = 0;
    let count = random.pick(&[1, 2, 3]);
    let words: Vec<Vec<u32>> = (0..count).map(|_| any_word(shape, way, random)).collect();
    let session = few_pages(shape, random);
    let call = bundle(shape, way, &session, &words, random);
    let (size, room) = (shape.word_len(), shape.scratch_len());
    let run = count * size;
    let lengths = [0, 1, size - 1, run - 1, run + 1, run + size - 1, BUNDLE * size + 1, (BUNDLE + 1) * size];
    let lists = [0, 3 * count, OUTCOMES_LEN - 3, OUTCOMES_LEN - 1, OUTCOMES_LEN + 1, OUTCOMES_LEN + 3];
    let mut cases: Vec<(usize, usize)> = lengths.map(|length| (1, length)).to_vec();
    cases.extend([0, room - 1, room + 1, 2 * room].map(|length| (2, length)));
    cases.extend(lists.map(|length| (3, length)));
    for (i, length) in cases {
        let call = with_length(&call, i, length, random);
        expect(make, &call, &turned_down(&call, Refusal::Length))?;
        tried += 1;
    }
    Ok(tried)
}

/// 1 comes before 18, 18 before 11, 11 before 2, whatever the words; all is as lent.
fn with_another_fault(make: Make, shape: Shape, way: u32, random: &mut Random) -> Verdict {
    let mut tried = 0;
    let words: Vec<Vec<u32>> = (0..2).map(|_| any_word(shape, way, random)).collect();
    let right = few_pages(shape, random);
    let call = bundle(shape, way, &right, &words, random);
    let ragged = |call: &Call, random: &mut Random| {
        let i = 1 + random.below(3);
        with_length(call, i, call.slices[i].len() - 1, random)
    };
    let mut wrong = call.clone();
    wrong.slices[0][PAGES_AT] ^= 1;
    for figures in [&call, &wrong] {
        let sloped = reshaped(figures, bad_slope(shape, shape, random));
        let unlawful = reshaped(figures, Shape { q: 9, ..shape });
        let no_way = Call { number: WAYS + random.number() % (u32::MAX - WAYS), ..figures.clone() };
        for (call, refusal) in [(sloped, Refusal::Slope), (unlawful, Refusal::Shape), (no_way, Refusal::Shape)] {
            for call in [ragged(&call, random), call] {
                expect(make, &call, &turned_down(&call, refusal))?;
                tried += 1;
            }
        }
    }
    for call in [ragged(&wrong, random), wrong] {
        expect(make, &call, &turned_down(&call, Refusal::Figures))?;
        tried += 1;
    }
    Ok(tried)
}

/// A refused word in every place: it keeps its symbols, and the others are taken. A symbol that is too large
/// is refused by every way; of width 32 there is none, and the page number can't be.
fn with_a_refused_word(make: Make, shape: Shape, way: u32, random: &mut Random) -> Verdict {
    let pages = recording(shape, 4, random);
    for place in 0..=pages.len() {
        let mut words: Vec<Vec<u32>> = pages.iter().map(|page| readable(shape, way, page, random)).collect();
        let mut refused = Page::any(shape, random);
        let refusal = if shape.b < 32 { Refusal::Width } else { Refusal::Page };
        refused.number = if shape.b < 32 { refused.number } else { PAGES as u32 };
        let mut word = refused.codeword(shape);
        if shape.b < 32 {
            word[random.below(shape.word_len())] = u32::MAX;
        }
        words.insert(place, word.clone());
        let after = follow(make, &bundle(shape, way, &fresh(shape), &words, random))?;
        let at = place * shape.word_len();
        let outcomes: Vec<u32> = after.slices[3].chunks_exact(3).map(|outcome| outcome[0]).collect();
        let taken = outcomes[..words.len()].iter().filter(|&&kind| kind == 0).count();
        let kept = after.slices[1][at..at + shape.word_len()] == word;
        let answered = after.slices[3][3 * place..3 * place + 3] == [2, refusal.number(), 0];
        if !kept || !answered || taken != pages.len() {
            return Err(format!("{shape:?}, way {way}: a refused word at {place} does not stand by itself"));
        }
    }
    Ok(pages.len() as u64 + 1)
}

/// Pages that come several times in one bundle: taken once, then again.
fn with_repeats(make: Make, shape: Shape, way: u32, random: &mut Random) -> Verdict {
    let pages = recording(shape, 3, random);
    let mut coming: Vec<usize> = (0..pages.len()).chain((0..5).map(|_| random.below(pages.len()))).collect();
    random.shuffle(&mut coming);
    let words: Vec<Vec<u32>> = coming.iter().map(|&i| readable(shape, way, &pages[i], random)).collect();
    let after = follow(make, &bundle(shape, way, &fresh(shape), &words, random))?;
    for (j, i) in coming.iter().enumerate() {
        let again = coming[..j].contains(i);
        if after.slices[3][3 * j..3 * j + 2] != [u32::from(again), pages[*i].number] {
            return Err(format!(
                "{shape:?}, way {way}: word {j} of {coming:?} is answered {:?}",
                &after.slices[3][3 * j..][..3]
            ));
        }
    }
    Ok(1)
}

/// A count that the first pages fill: the next page with its function is 9, and pages without it go on.
fn worn(make: Make, shape: Shape, way: u32, random: &mut Random) -> Verdict {
    let pages = recording(shape, 6, random);
    let Some(function) = pages[0].calls().next() else { return Ok(0) };
    let marks = |page: &Page| page.calls().filter(|&other| other == function).count() as u32;
    let mut tried = 0;
    for filled in 1..=pages.len() {
        let mut session = fresh(shape);
        session[CALLS_AT + function] = u32::MAX - pages[..filled].iter().map(marks).sum::<u32>();
        let words: Vec<Vec<u32>> = pages.iter().map(|page| readable(shape, way, page, random)).collect();
        let after = follow(make, &bundle(shape, way, &session, &words, random))?;
        for (j, page) in pages.iter().enumerate() {
            let worn = j >= filled && marks(page) > 0;
            let expected = if worn { [2, Refusal::Overflow.number()] } else { [0, page.number] };
            if after.slices[3][3 * j..3 * j + 2] != expected {
                return Err(format!(
                    "{shape:?}, way {way}: page {j}, {filled} fit, is answered {:?}",
                    &after.slices[3][3 * j..][..3]
                ));
            }
        }
        tried += 1;
    }
    Ok(tried)
}

/// A recording in bundles of any sizes, each page some times, refused words between: the tally is its own.
fn recordings(make: Make, shape: Shape, way: u32, random: &mut Random) -> Verdict {
    let pages = recording(shape, 10, random);
    let mut words = vec![];
    for page in &pages {
        words.extend((0..1 + random.below(2)).map(|_| readable(shape, way, page, random)));
        if shape.b < 32 && random.one_in(3) {
            words.push(vec![u32::MAX; shape.word_len()]);
        }
    }
    random.shuffle(&mut words);
    let (mut session, mut rest, mut tried) = (fresh(shape), &words[..], 0);
    while !rest.is_empty() {
        let (now, later) = rest.split_at(1 + random.below(rest.len().min(7)));
        session = follow(make, &bundle(shape, way, &session, now, random))?.slices[0].clone();
        rest = later;
        tried += 1;
    }
    if session[CALLS_AT..] != own_tally(&pages) || session[PAGES_AT] != pages.len() as u32 {
        return Err(format!("{shape:?}, way {way}: the tally is not the recording's"));
    }
    Ok(tried)
}
