//! A search for words that reading the nearest codeword takes long for, or restoring with so many dead cells. It climbs:
//! the damage, or a place of the list, is changed a little, and kept if the word then takes longer. Damage has as many
//! symbols as are in reach, to 2n: with fewer the vote or little more finds them, and with many more some direction shows
//! too much. The codeword has no bearing on the time, so it is zero.

use crate::damage::{damaged, list, make, Error, STYLES};
use crate::library::{number, shape_in};
use crate::light::light;
use crate::random::Random;
use crate::reference::restorer::reach;
use crate::reference::shape::Shape;
use crate::reference::square::{check, positions_on};
use shaftglimmer::{decode, decode_nearest, fill_with, restore_with};
use std::env;
use std::process::ExitCode;
use std::time::{Duration, Instant};

/// So many words in a row that take no longer end a climb.
const PATIENCE: u32 = 400;

/// Of so many calls the shortest counts.
const CALLS: usize = 9;

/// The same for what is told at the end.
const LAST_CALLS: usize = 99;

pub fn run() -> ExitCode {
    let Some((seed, search, seconds)) = arguments() else {
        eprintln!("usage: slowest SEED Q N B SECONDS [PLACES], with a lawful shape and fewer than 2n places");
        return ExitCode::from(2);
    };
    let mut random = Random::new(seed, "slowest");
    let end = Instant::now() + Duration::from_secs(seconds);
    let mut found = Found { damage: Damage { places: vec![], error: vec![] }, time: Duration::ZERO };
    let (mut climbs, mut words) = (0, 0);
    while climbs == 0 || Instant::now() < end {
        let top = search.climb(end, &mut words, &mut random);
        climbs += 1;
        if top.time > found.time {
            found = top;
        }
    }
    let Shape { q, n, b, .. } = search.shape;
    println!("seed {seed}, shape ({q}, {n}, {b}), {seconds} s: {words} words in {climbs} climbs");
    search.tell(&found.damage);
    ExitCode::SUCCESS
}

/// Without a number of places the nearest codeword is read.
fn arguments() -> Option<(u64, Search, u64)> {
    let numbers: Option<Vec<u64>> = env::args().skip(1).map(|text| text.parse().ok()).collect();
    let numbers = numbers?;
    let (&[seed, q, n, b, seconds], places) = numbers.split_first_chunk()?;
    let shape = Shape::new(q.try_into().ok()?, n.try_into().ok()?, b.try_into().ok()?);
    let search = match *places {
        [] => Search { shape, places: 0, readers: [("nearest", nearest), ("clean", clean)] },
        [places] => Search { shape, places: places as usize, readers: [("restored", restored), ("filled in", filled)] },
        _ => return None,
    };
    (shape.lawful() && search.places < 2 * n as usize).then_some((seed, search, seconds))
}

/// Listed places, and the symbols XORed onto the zero word.
#[derive(Clone)]
struct Damage {
    places: Vec<usize>,
    error: Error,
}

/// What a word is read with: the shape's values, the listed places, the word and a scratch.
type Read = fn(&[u32], &[u32], &mut [u32], &mut [u32]) -> u32;

fn nearest(shape: &[u32], _: &[u32], word: &mut [u32], _: &mut [u32]) -> u32 {
    number(decode_nearest(shape_in(shape), word)) as u32
}

fn clean(shape: &[u32], _: &[u32], word: &mut [u32], _: &mut [u32]) -> u32 {
    number(decode(shape_in(shape), word)) as u32
}

fn restored(shape: &[u32], places: &[u32], word: &mut [u32], scratch: &mut [u32]) -> u32 {
    number(restore_with(shape_in(shape), places, word, scratch)) as u32
}

fn filled(shape: &[u32], places: &[u32], word: &mut [u32], scratch: &mut [u32]) -> u32 {
    number(fill_with(shape_in(shape), places, word, scratch)) as u32
}

struct Found {
    damage: Damage,
    time: Duration,
}

/// What is searched for: the shape, how many places are listed, and two readers, of which the first is to take long.
struct Search {
    shape: Shape,
    places: usize,
    readers: [(&'static str, Read); 2],
}

impl Search {
    /// The word, and how long it takes.
    fn tell(&self, damage: &Damage) {
        for (name, read) in self.readers {
            let (time, answer) = self.longer_than(Duration::ZERO, read, damage, LAST_CALLS).expect("some time");
            let answer = match answer.checked_sub(1 << 31) {
                Some(refusal) => format!("refusal {refusal}"),
                None => format!("{answer} changed"),
            };
            println!("{name}: {:.1} µs, {answer}", time.as_nanos() as f64 / 1e3);
        }
        println!("listed: {:?}", list(damage.places.clone()));
        println!("{} wrong symbols of the zero word:", damage.error.len());
        damage.error.iter().for_each(|(j, symbol)| println!("  {symbol} on symbol {j}"));
    }

    /// The time of reading the damaged zero word, the shortest of some calls, and the answer; unless one call is no
    /// longer than that.
    fn longer_than(&self, time: Duration, read: Read, damage: &Damage, calls: usize) -> Option<(Duration, u32)> {
        let (values, places) = (self.shape.values(), list(damage.places.clone()));
        let word = damaged(&vec![0; self.shape.word_len()], &damage.error);
        let (mut lent, mut scratch) = (word.clone(), vec![0; self.shape.scratch_len()]);
        let (mut shortest, mut answer) = (Duration::MAX, 0);
        for _ in 0..calls {
            lent.copy_from_slice(&word);
            let start = Instant::now();
            answer = read(&values, &places, &mut lent, &mut scratch);
            shortest = shortest.min(start.elapsed());
            if shortest <= time {
                return None;
            }
        }
        Some((shortest, answer))
    }

    /// From any damage on, until nothing takes longer for a while.
    fn climb(&self, end: Instant, words: &mut u64, random: &mut Random) -> Found {
        let mut top = Found { damage: self.start(random), time: Duration::ZERO };
        let mut in_vain = 0;
        while in_vain < PATIENCE && Instant::now() < end {
            let damage = if top.time.is_zero() { top.damage.clone() } else { self.changed(&top.damage, random) };
            *words += 1;
            in_vain += 1;
            if let Some((time, _)) = self.longer_than(top.time, self.readers[0].1, &damage, CALLS) {
                top = Found { damage, time };
                in_vain = 0;
            }
        }
        top
    }

    /// The fewest and the most symbols of the damage.
    fn bounds(&self) -> (usize, usize) {
        (reach(self.shape, self.places).max(1), 2 * self.shape.n as usize)
    }

    /// Damage of any style with places anywhere, or both parts of a light codeword.
    fn start(&self, random: &mut Random) -> Damage {
        let (fewest, most) = self.bounds();
        let weight = fewest + random.below(most - fewest + 1);
        if random.one_in(2) {
            let places = random.positions(self.places, self.shape.word_len());
            return Damage { places, error: make(random.pick(&STYLES), self.shape, weight, random) };
        }
        let symbol = random.nonzero_symbol(self.shape);
        let mut positions = light(self.shape, random);
        random.shuffle(&mut positions);
        let others = positions.split_off(self.places.min(positions.len()));
        let places = random.more_positions(positions, self.places, self.shape.word_len());
        let error: Error = others.into_iter().take(weight).map(|j| (j, symbol)).collect();
        if error.is_empty() {
            return Damage { places, error: make(random.pick(&STYLES), self.shape, weight, random) };
        }
        Damage { places, error }
    }

    /// One symbol moved, added, taken away, or another one there; or another place listed.
    fn changed(&self, damage: &Damage, random: &mut Random) -> Damage {
        let Damage { mut places, mut error } = damage.clone();
        let (fewest, most) = self.bounds();
        let at = random.below(error.len());
        let free = free_position(self.shape, &error, random);
        match random.below(if self.places == 0 { 4 } else { 6 }) {
            0 if error.len() < most => {
                let symbol = likely_symbol(self.shape, &error, random);
                error.extend(free.map(|j| (j, symbol)));
            }
            1 if error.len() > fewest => {
                error.swap_remove(at);
            }
            2 => error[at].1 = likely_symbol(self.shape, &error, random),
            4 | 5 => {
                if let Some(j) = free.filter(|j| !places.contains(j)) {
                    places[random.below(self.places)] = j;
                }
            }
            _ => {
                if let Some(j) = free {
                    error[at].0 = j;
                }
            }
        }
        Damage { places, error }
    }
}

/// That of another wrong symbol, the sum of two, or any.
fn likely_symbol(shape: Shape, error: &Error, random: &mut Random) -> u32 {
    let (one, other) = (random.pick(error).1, random.pick(error).1);
    match random.below(4) {
        0 => random.nonzero_symbol(shape),
        1 if one != other => one ^ other,
        _ => one,
    }
}

/// A position that is not wrong, mostly on a check of one that is.
fn free_position(shape: Shape, error: &Error, random: &mut Random) -> Option<usize> {
    let j = if random.one_in(4) {
        random.below(shape.word_len())
    } else {
        let (beside, t) = (random.pick(error).0, random.below(shape.n as usize));
        random.pick(&positions_on(shape, check(shape, t, beside)))
    };
    error.iter().all(|&(i, _)| i != j).then_some(j)
}
