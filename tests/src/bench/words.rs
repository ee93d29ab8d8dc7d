//! Reading, writing and arrivals.

use super::answer;
use super::contest::{heading, row, timed, times, Batch, Times};
use crate::capture::{page_numbers, recording};
use crate::damage::{apply, damaged, make, unmasked, Style};
use crate::library::{session_in, shape_in};
use crate::random::Random;
use crate::reference::reader::error_of;
use crate::reference::session::{Session, SESSION_LEN};
use crate::reference::shape::Shape;
use crate::rivals::arrival;
use crate::rivals::straightforward::{self, Writer};
use crate::rivals::tuned;
use shaftglimmer::{decode, encode_with, Way};
use std::hint::black_box;
use std::time::Duration;

const SHAPES: [Shape; 6] = [
    Shape::new(17, 4, 32),
    Shape::new(3, 2, 8),
    Shape::new(5, 3, 16),
    Shape::new(11, 5, 32),
    Shape::new(31, 8, 32),
    Shape::new(31, 2, 16),
];

#[derive(Clone, Copy)]
pub(super) enum Kind {
    Undamaged,
    Damaged,
    Refused,
}

impl Kind {
    pub(super) const ALL: [Kind; 3] = [Kind::Undamaged, Kind::Damaged, Kind::Refused];

    pub(super) fn name(self) -> &'static str {
        match self {
            Kind::Undamaged => "undamaged",
            Kind::Damaged => "damaged",
            Kind::Refused => "refused",
        }
    }

    /// Damages a codeword: an unmasked error of weight 1 to n - 1, or one that reading refuses.
    pub(super) fn damage(self, shape: Shape, word: &mut [u32], random: &mut Random) {
        let error = match self {
            Kind::Undamaged => return,
            Kind::Damaged => unmasked(shape, 1 + random.below(shape.most_errors()), random),
            Kind::Refused => refused_error(shape, word, random),
        };
        apply(&error, word);
    }
}

fn refused_error(shape: Shape, word: &[u32], random: &mut Random) -> Vec<(usize, u32)> {
    loop {
        let style = random.pick(&[Style::Spread, Style::Masked]);
        let weight = 2 + random.below(shape.n as usize);
        let error = make(style, shape, weight, random);
        if error_of(shape, &damaged(word, &error)).is_none() {
            return error;
        }
    }
}

/// What becomes of the words that arrive.
#[derive(Clone, Copy)]
enum Arriving {
    Taken,
    Again,
    Refused,
}

impl Arriving {
    const ALL: [(Arriving, Kind); 5] = [
        (Arriving::Taken, Kind::Undamaged),
        (Arriving::Taken, Kind::Damaged),
        (Arriving::Again, Kind::Undamaged),
        (Arriving::Again, Kind::Damaged),
        (Arriving::Refused, Kind::Refused),
    ];

    fn name(self, kind: Kind) -> String {
        match self {
            Arriving::Taken => format!("arrival, taken, {}", kind.name()),
            Arriving::Again => format!("arrival, again, {}", kind.name()),
            Arriving::Refused => "arrival, refused".into(),
        }
    }

    /// Of the straightforward way's time and of the tuned counterpart's.
    fn targets(self) -> [f64; 2] {
        match self {
            Arriving::Taken => [f64::INFINITY, 0.8],
            Arriving::Again | Arriving::Refused => [f64::INFINITY, 0.6],
        }
    }
}

/// Of the straightforward way's time and of the tuned counterpart's: of reading, and of writing.
const READING: [f64; 2] = [0.5, 1.0];
const WRITING: [f64; 2] = [f64::INFINITY, 1.0];

/// Prints the table; gives the rows that miss their target.
pub fn table() -> Vec<String> {
    heading("work", &["ours / straightforward", "ours / tuned"]);
    let mut missed = vec![];
    for shape in SHAPES {
        for kind in Kind::ALL {
            missed.extend(row(shape, &format!("read, {}", kind.name()), reading(shape, kind), &READING));
        }
        missed.extend(row(shape, "write", writing(shape), &WRITING));
        for (becomes, kind) in Arriving::ALL {
            let times = arriving(shape, becomes, kind);
            missed.extend(row(shape, &becomes.name(kind), times, &becomes.targets()));
        }
    }
    missed
}

/// As many words as stay in a processor's own cache.
pub(super) fn batch_size(shape: Shape) -> usize {
    (32_768 / shape.word_len()).min(1_024)
}

/// A reader for one shape, of symbols or of bytes.
pub(super) type Decode<'a, T> = &'a dyn Fn(&mut [T]) -> u32;

fn reading(shape: Shape, kind: Kind) -> Times {
    let words = some_words(shape, "reading", |word, random| kind.damage(shape, word, random));
    let shape = black_box(shape);
    let values = shape.values();
    let ours = |word: &mut [u32]| answer(decode(shape_in(&values), word));
    let plain = |word: &mut [u32]| straightforward::decode(shape, word);
    let tuned = |word: &mut [u32]| tuned::decode(shape, word);
    race(shape, &words, [&ours, &plain, &tuned])
}

/// The words of a batch, one behind the other: codewords that are then damaged.
pub(super) fn some_words(shape: Shape, name: &str, damage: impl Fn(&mut [u32], &mut Random)) -> Vec<u32> {
    let mut random = Random::new(1, name);
    let mut words = vec![];
    for _ in 0..batch_size(shape) {
        let mut word = random.codeword(shape);
        damage(&mut word, &mut random);
        words.extend(word);
    }
    words
}

/// Times the readers, who must agree, on the words of a batch.
pub(super) fn race<T: Copy + PartialEq, const C: usize>(shape: Shape, words: &[T], readers: [Decode<T>; C]) -> Times {
    let size = words.len() / batch_size(shape);
    let results = readers.map(|decode| read_all(size, decode, &mut words.to_vec()));
    assert!(results.iter().all(|result| *result == results[0]), "the readers disagree");
    times(batch_size(shape), readers.map(|decode| read_batch(size, decode, words)))
}

/// A reader's work on a copy of the words.
pub(super) fn read_batch<'a, T: Copy>(size: usize, decode: Decode<'a, T>, words: &'a [T]) -> Batch<'a> {
    let mut work = words.to_vec();
    Box::new(move || {
        work.copy_from_slice(words);
        timed(|| {
            work.chunks_exact_mut(size).for_each(|word| {
                black_box(decode(word));
            })
        })
    })
}

/// Each answer, and the words as left.
pub(super) fn read_all<T: Copy>(size: usize, decode: Decode<T>, words: &mut [T]) -> (Vec<u32>, Vec<T>) {
    let answers = words.chunks_exact_mut(size).map(decode).collect();
    (answers, words.to_vec())
}

/// Information symbols, scratch and word.
type Encode<'a> = &'a dyn Fn(&[u32], &mut [u32], &mut [u32]) -> u32;

fn writing(shape: Shape) -> Times {
    let mut random = Random::new(1, "writing");
    let all: Vec<u32> = (0..batch_size(shape)).flat_map(|_| random.symbols(shape, shape.data_len())).collect();
    let shape = black_box(shape);
    let (values, writer) = (shape.values(), Writer::new(shape));
    let writers: [Encode; 3] = [
        &|data, scratch, word| answer(encode_with(shape_in(&values), data, word, scratch).map(|()| 0)),
        &|data, scratch, word| writer.encode(data, scratch, word),
        &|data, scratch, word| tuned::encode(shape, data, scratch, word),
    ];
    let write_all = |encode: Encode, words: &mut [u32], scratch: &mut [u32]| {
        for (data, word) in all.chunks_exact(shape.data_len()).zip(words.chunks_exact_mut(shape.word_len())) {
            black_box(encode(data, scratch, word));
        }
    };
    let blank = || (vec![0; batch_size(shape) * shape.word_len()], vec![0; shape.scratch_len()]);
    let results = writers.map(|encode| {
        let (mut words, mut scratch) = blank();
        write_all(encode, &mut words, &mut scratch);
        words
    });
    assert!(results[0] == results[1] && results[0] == results[2], "the writers disagree");
    let write_all = &write_all;
    let batch = |encode| -> Batch {
        let (mut words, mut scratch) = blank();
        Box::new(move || timed(|| write_all(encode, &mut words, &mut scratch)))
    };
    times(batch_size(shape), writers.map(batch))
}

/// Session, word and scratch; gives the outcome.
type Arrive<'a> = &'a dyn Fn(&mut [u32; SESSION_LEN], &mut [u32], &mut [u32]) -> [u32; 3];

/// Pages of different numbers that come to a session, fresh or with these pages taken.
fn arriving(shape: Shape, becomes: Arriving, kind: Kind) -> Times {
    let mut random = Random::new(1, "arriving");
    let mut session = Session::fresh(shape).expect("a lawful shape");
    let mut words = vec![];
    for page in recording(shape, batch_size(shape).min(page_numbers(shape)), &mut random) {
        let mut word = page.codeword(shape);
        kind.damage(shape, &mut word, &mut random);
        words.push(word);
        if let Arriving::Again = becomes {
            session.take(page.number);
        }
    }
    let start = session.values().try_into().expect("a session's length");
    let writer = Writer::new(shape);
    let by_table = |word: &[u32], data: &mut [u32]| writer.extract(word, data);
    let by_rows = |word: &[u32], data: &mut [u32]| tuned::extract(shape, word, data);
    let plain = arrival::Way { decode: straightforward::decode, extract: &by_table };
    let tuned = arrival::Way { decode: tuned::decode, extract: &by_rows };
    let contestants: [Arrive; 3] = [
        &|session, word, scratch| session_in(session).arrive_with(Way::Clean, word, scratch).to_values(),
        &|session, word, scratch| arrival::arrive(plain, session, word, scratch).values(),
        &|session, word, scratch| arrival::arrive(tuned, session, word, scratch).values(),
    ];
    let results = contestants.map(|arrive| Capture::new(shape, &start, &words).outcomes(arrive));
    assert!(results[0] == results[1] && results[0] == results[2], "the arrivals disagree");
    assert!(results[0].1.iter().all(|outcome| outcome[0] == becomes as u32), "an arrival of another kind");
    let (start, words) = (&start, &words);
    let batch = |arrive| -> Batch {
        let mut capture = Capture::new(shape, start, words);
        Box::new(move || {
            capture.reset(start, words);
            capture.run(arrive)
        })
    };
    times(words.len(), contestants.map(batch))
}

/// A session and the words that come to it.
struct Capture {
    session: [u32; SESSION_LEN],
    words: Vec<Vec<u32>>,
    scratch: Vec<u32>,
}

impl Capture {
    fn new(shape: Shape, start: &[u32; SESSION_LEN], words: &[Vec<u32>]) -> Capture {
        Capture { session: *start, words: words.to_vec(), scratch: vec![0; shape.scratch_len()] }
    }

    fn reset(&mut self, start: &[u32; SESSION_LEN], words: &[Vec<u32>]) {
        self.session = *start;
        for (word, original) in self.words.iter_mut().zip(words) {
            word.copy_from_slice(original);
        }
    }

    fn run(&mut self, arrive: Arrive) -> Duration {
        timed(|| {
            for word in &mut self.words {
                black_box(arrive(&mut self.session, word, &mut self.scratch));
            }
        })
    }

    /// The session as left, and the outcomes.
    fn outcomes(mut self, arrive: Arrive) -> ([u32; SESSION_LEN], Vec<[u32; 3]>) {
        let outcomes = self.words.iter_mut().map(|word| arrive(&mut self.session, word, &mut self.scratch)).collect();
        (self.session, outcomes)
    }
}
