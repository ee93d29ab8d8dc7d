//! Arrivals in sessions grown from a fresh one and in sessions handed in from elsewhere.

use super::calls::old_scratch_len;
use super::elsewhere::any_session;
use super::every::repeated;
use super::expect::expect_reference;
use crate::call::{difference, After, Call, Entry};
use crate::capture::{own_tally, recording, Page};
use crate::damage::{allowed, apply, make, STYLES};
use crate::random::Random;
use crate::reference::page::PAGES;
use crate::reference::session::{
    ways_of, Outcome, Session, CALLS_AT, LOWEST_AT, MARKS_AT, PAGES_AT, SESSION_LEN, WAYS,
};
use crate::reference::shape::{Shape, SHAPE_LEN};
use crate::reference::writer::codeword;
use crate::report::{Group, Unit, Verdict};
use crate::shrink::{expect, without_parts, Case};

pub fn groups() -> [Group; 2] {
    let mut group = Group::new("arrivals", Unit::Words);
    let mut queries = Group::new("count queries", Unit::Calls);
    group.test_shapes("grown, (q, n)", |_, _| vec![1, 8, 11, 31, 32], grown);
    group.test_shapes("handed in, (q, n)", |_, _| repeated(&[1, 2, 8, 11, 31, 32], 4), handed_in);
    group.test_shapes("worn counts, (q, n)", |_, _| repeated(&[1, 8, 32], 4), worn);
    queries.test_shapes("(q, n)", |_, random| vec![1 + random.below(32) as u32], count_queries);
    group.test("all 1024 pages, full of marks", |random| all_pages(Shape::new(31, 2, 32), random));
    group.test("all 1024 pages, other slopes", |random| all_pages(random.sloped(31, 2, 32), random));
    [group, queries]
}

/// The way that the caller names, and what it lends beside the session.
#[derive(Clone)]
struct Arrival {
    way: u32,
    word: Vec<u32>,
    scratch: Vec<u32>,
}

/// A session and a list of arrivals.
#[derive(Clone)]
struct Run {
    start: Vec<u32>,
    arrivals: Vec<Arrival>,
}

impl Run {
    /// Every arrival of the library's compared with the reference's, from the same session; the last
    /// session and all outcomes.
    fn follow(&self) -> Result<(Vec<u32>, Vec<[u32; 3]>), String> {
        let mut session = self.start.clone();
        let mut outcomes = vec![];
        for (i, arrival) in self.arrivals.iter().enumerate() {
            let lent: [&[u32]; 4] = [&session, &arrival.word, &arrival.scratch, &[9; 3]];
            let call = Call::numbered(Entry::Arrive, shape_of(&session), arrival.way, &lent);
            let (expected, found) = (call.on_reference(), call.on_library());
            if let Some(difference) = difference(Entry::Arrive, &expected, &found) {
                return Err(format!("at arrival {i}, {difference}"));
            }
            session.copy_from_slice(&found.slices[0]);
            outcomes.push([found.slices[3][0], found.slices[3][1], found.slices[3][2]]);
        }
        Ok((session, outcomes))
    }
}

impl Case for Run {
    fn difference(&self) -> Option<String> {
        self.follow().err()
    }

    fn smaller(&self) -> impl Iterator<Item = Run> {
        without_parts(&self.arrivals).map(|arrivals| Run { start: self.start.clone(), arrivals })
    }

    fn describe(&self) -> String {
        let session = Session::from_values(&self.start);
        let pages: Vec<usize> = (0..PAGES).filter(|&page| session.taken[page]).collect();
        let calls: Vec<(usize, u32)> = session.calls.into_iter().enumerate().filter(|(_, calls)| *calls > 0).collect();
        let words: Vec<(u32, &Vec<u32>)> = self.arrivals.iter().map(|arrival| (arrival.way, &arrival.word)).collect();
        let Session { shape, figures, .. } = session;
        format!("{shape:?}, {figures:?}, taken {pages:?}, calls {calls:?}, ways and words {words:?}")
    }
}

fn shape_of(session: &[u32]) -> Shape {
    Shape::from_values(&session[..SHAPE_LEN])
}

fn arrival(way: u32, shape: Shape, word: Vec<u32>, random: &mut Random) -> Arrival {
    Arrival { way, word, scratch: random.numbers(shape.scratch_len()) }
}

/// A page with damage that reading undoes, by any way.
fn readable(shape: Shape, page: &Page, random: &mut Random) -> Arrival {
    let way = random.below(ways_of(shape) as usize) as u32;
    let error = allowed(way, shape, random);
    arrival(way, shape, page.damaged(shape, &error), random)
}

/// Anything: mostly words that are refused, for every reason.
fn anything(shape: Shape, page: &Page, random: &mut Random) -> Arrival {
    let mut data = page.symbols(shape);
    let mut weight = random.below(shape.n as usize);
    match random.below(8) {
        0 => data[0] = random.symbol(shape),
        1 => data[1] = random.symbol(shape),
        2 => data[random.below(shape.data_len())] = random.symbol(shape),
        3 => data = random.symbols(shape, shape.data_len()),
        _ => weight = random.below(shape.n as usize + 3),
    }
    let mut word = codeword(shape, &data);
    let style = random.pick(&STYLES);
    apply(&make(style, shape, weight, random), &mut word);
    match random.below(16) {
        0 => word = random.symbols(shape, shape.word_len()),
        1 => word[random.below(shape.word_len())] |= shape.largest().saturating_add(1),
        2 => word.truncate(shape.word_len() - 1),
        3 => word.push(0),
        _ => {}
    }
    let way = if random.one_in(16) { random.number() } else { random.below(WAYS as usize) as u32 };
    let mut arrival = arrival(way, shape, word, random);
    match random.below(16) {
        0 => arrival.scratch.truncate(shape.scratch_len() - 1),
        1 => arrival.scratch.push(7),
        2 => arrival.scratch.resize(old_scratch_len(shape), 7),
        _ => {}
    }
    arrival
}

fn is_refused(shape: Shape, arrival: &Arrival) -> bool {
    let mut session = Session::fresh(shape).expect("a lawful shape");
    let outcome = session.arrive(arrival.way, &mut arrival.word.clone(), &mut arrival.scratch.clone());
    matches!(outcome, Outcome::Refused(_))
}

/// Every page some times in any order, refused words between: the tally is the recording's own.
fn grown(shape: Shape, random: &mut Random) -> Verdict {
    let pages = recording(shape, 12, random);
    let mut arrivals = vec![];
    for page in &pages {
        arrivals.extend((0..1 + random.below(3)).map(|_| readable(shape, page, random)));
        arrivals.extend(Some(anything(shape, page, random)).filter(|arrival| is_refused(shape, arrival)));
    }
    random.shuffle(&mut arrivals);
    fits_recording(shape, &pages, arrivals)
}

/// Runs the list from a fresh session and holds the end to the recording.
fn fits_recording(shape: Shape, pages: &[Page], arrivals: Vec<Arrival>) -> Verdict {
    let After { answer, mut slices } = Call::new(Entry::Fresh, shape, &[&[7; SESSION_LEN]]).on_library();
    let run = Run { start: slices.swap_remove(0), arrivals };
    let Ok((session, outcomes)) = run.follow() else { return expect(&run).map(|()| 0) };
    let taken = outcomes.iter().filter(|outcome| outcome[0] == 0).count();
    if answer != 0 || session[CALLS_AT..] != own_tally(pages) || taken != pages.len() {
        return Err(format!("{shape:?}: {taken} pages taken of {}; the tally is not the recording's", pages.len()));
    }
    let missing = (0..PAGES as u32).find(|&number| pages.iter().all(|page| page.number != number));
    let figures = [pages.len() as u32, missing.unwrap_or(PAGES as u32)];
    if session[PAGES_AT..MARKS_AT] != figures {
        return Err(format!("{shape:?}: the figures {:?}, expected {figures:?}", &session[PAGES_AT..MARKS_AT]));
    }
    Ok(outcomes.len() as u64)
}

/// Sessions with any pages taken, any nonzero number for yes, and counts near both ends. Few have
/// figures that disagree; they have their own group.
fn handed_in(shape: Shape, random: &mut Random) -> Verdict {
    let mut start = any_session(shape, random);
    if random.one_in(8) {
        disagree(&mut start, random);
    }
    let pages: Vec<Page> = (0..6).map(|_| Page::any(shape, random)).collect();
    let some = |page: &Page| {
        if random.one_in(3) {
            anything(shape, page, random)
        } else {
            readable(shape, page, random)
        }
    };
    let run = Run { start, arrivals: pages.iter().map(some).collect() };
    expect(&run)?;
    Ok(run.arrivals.len() as u64)
}

/// Another figure, or another mark under the same figures.
fn disagree(session: &mut [u32], random: &mut Random) {
    let page = MARKS_AT + random.below(PAGES);
    let at = random.pick(&[PAGES_AT, LOWEST_AT, page]);
    session[at] = match session[at] {
        0 => 1,
        _ if at == page => 0,
        figure => random.pick(&[figure - 1, figure + 1]),
    };
}

/// A function's count that its marks just fill, and one that they just pass: the latter is refused,
/// but only where the page is new.
fn worn(shape: Shape, random: &mut Random) -> Verdict {
    let page = Page::any(shape, random);
    let Some(function) = page.calls().next_back() else { return Ok(0) };
    let times = page.calls().filter(|&other| other == function).count() as u32;
    let cases = [(times, false), (times - 1, false), (times - 1, true), (0, false)];
    for (left, taken) in cases {
        let mut session = Session::fresh(shape).expect("a lawful shape");
        session.calls[function] = u32::MAX - left;
        if taken {
            session.take(page.number);
        }
        let arrivals = vec![readable(shape, &page, random), readable(shape, &page, random)];
        expect(&Run { start: session.values(), arrivals })?;
    }
    Ok(2 * cases.len() as u64)
}

/// The largest recording there is, each page twice. A quarter of the marks is idle.
fn all_pages(shape: Shape, random: &mut Random) -> Verdict {
    let mut page =
        |number| Page { number, marks: (0..shape.most_marks()).map(|_| random.below(4) as u32 * 85).collect() };
    let pages: Vec<Page> = (0..PAGES as u32).map(&mut page).collect();
    let mut arrivals: Vec<Arrival> = pages.iter().chain(&pages).map(|page| readable(shape, page, random)).collect();
    random.shuffle(&mut arrivals);
    fits_recording(shape, &pages, arrivals)
}

fn count_queries(shape: Shape, random: &mut Random) -> Verdict {
    let right = any_session(shape, random);
    let mut wrong = right.clone();
    disagree(&mut wrong, random);
    let functions = (0..300).chain([1 << 16, 1 << 31, u32::MAX]);
    let mut tried = 0;
    for function in functions {
        for session in [&right, &wrong] {
            expect_reference(Call::on_library, &Call::numbered(Entry::Count, shape_of(session), function, &[session]))?;
            tried += 1;
        }
    }
    Ok(tried)
}
