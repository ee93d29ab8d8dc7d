//! A bundle of words in one call, against as many single arrivals of the library's own, and against reading the words.

use super::contest::{heading, row, timed, times, Batch, Times};
use super::words::Kind;
use crate::capture::recording;
use crate::library::session_in;
use crate::random::Random;
use crate::reference::session::{Session, BUNDLE, OUTCOMES_LEN, SESSION_LEN};
use crate::reference::shape::Shape;
use shaftglimmer::{decode, Way};
use std::hint::black_box;
use std::time::Duration;

/// How much of the single arrivals' time is allowed, and of the time of reading, for each shape.
const TARGETS: [(Shape, [f64; 2]); 2] =
    [(Shape::new(17, 4, 32), [0.9, 3.0]), (Shape::new(3, 2, 8), [0.7, f64::INFINITY])];

/// Prints the table; gives the rows that miss their target.
pub fn table() -> Vec<String> {
    heading("64 words", &["one call / single arrivals", "one call / reading"]);
    let rows = TARGETS.into_iter().flat_map(|(shape, targets)| Kind::ALL.map(|kind| (shape, kind, targets)));
    rows.filter_map(|(shape, kind, targets)| row(shape, kind.name(), delivering(shape, kind), &targets)).collect()
}

/// Works on session, words and scratch.
type Deliver<'a> = &'a dyn Fn(&mut Bundle);

/// 64 pages of different numbers, one behind the other.
fn some_pages(shape: Shape, kind: Kind) -> Vec<u32> {
    let mut random = Random::new(1, "bundles");
    let mut words = vec![];
    for page in recording(shape, BUNDLE, &mut random) {
        let mut word = page.codeword(shape);
        kind.damage(shape, &mut word, &mut random);
        words.extend(word);
    }
    words
}

/// They come to a fresh session.
fn delivering(shape: Shape, kind: Kind) -> Times {
    let words = &some_pages(shape, kind);
    let size = shape.word_len();
    let in_one: Deliver = &|bundle: &mut Bundle| {
        let arrived =
            session_in(&mut bundle.session).arrive_all_with(Way::Clean, &mut bundle.words, &mut bundle.scratch);
        bundle.outcomes = *arrived.expect("a bundle of 64 words").as_values();
    };
    let singly: Deliver = &|bundle: &mut Bundle| {
        let session = session_in(&mut bundle.session);
        for (word, outcome) in bundle.words.chunks_exact_mut(size).zip(bundle.outcomes.chunks_exact_mut(3)) {
            outcome.copy_from_slice(&session.arrive_with(Way::Clean, word, &mut bundle.scratch).to_values());
        }
    };
    let reading: Deliver = &|bundle: &mut Bundle| {
        let shape = session_in(&mut bundle.session).shape();
        for word in bundle.words.chunks_exact_mut(size) {
            let _ = black_box(decode(shape, word));
        }
    };
    let results = [in_one, singly].map(|deliver| {
        let mut bundle = Bundle::new(shape, words);
        deliver(&mut bundle);
        (bundle.session, bundle.words, bundle.outcomes)
    });
    assert!(results[0] == results[1], "the bundle and the single arrivals disagree");
    let batch = |deliver| -> Batch {
        let mut bundle = Bundle::new(shape, words);
        Box::new(move || {
            bundle.reset(words);
            bundle.run(deliver)
        })
    };
    times(BUNDLE, [in_one, singly, reading].map(batch))
}

/// A session and the words that come to it.
struct Bundle {
    fresh: Vec<u32>,
    session: Vec<u32>,
    words: Vec<u32>,
    scratch: Vec<u32>,
    outcomes: [u32; OUTCOMES_LEN],
}

impl Bundle {
    fn new(shape: Shape, words: &[u32]) -> Bundle {
        let fresh = Session::fresh(shape).expect("a lawful shape").values();
        let (session, scratch) = (vec![0; SESSION_LEN], vec![0; shape.scratch_len()]);
        let mut bundle = Bundle { fresh, session, words: words.to_vec(), scratch, outcomes: [0; OUTCOMES_LEN] };
        bundle.reset(words);
        bundle
    }

    fn reset(&mut self, words: &[u32]) {
        self.session.copy_from_slice(&self.fresh);
        self.words.copy_from_slice(words);
    }

    fn run(&mut self, deliver: Deliver) -> Duration {
        timed(|| deliver(self))
    }
}
