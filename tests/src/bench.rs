//! The benchmark: the proved library against two Rust counterparts, on the same words in one run.

mod bundles;
mod bytes;
mod contest;
mod double;
mod erasures;
mod nearest;
mod processor;
mod program;
mod proposals;
mod restored;
mod votes;
mod words;

use crate::library::number;
use shaftglimmer::Refusal;

/// An answer as the counterparts give it.
fn answer(result: Result<u32, Refusal>) -> u32 {
    number(result) as u32
}

const WORDS: &str = "\
Ours / other below 1 means that the library is faster.
All three test shape, slopes, length and width, and clear the lent scratch where they are lent one.
The slopes are the standard ones; the library goes by those of the shape, the other two know only these.
In an arrival the session crosses as 1,292 numbers, its two figures are tested, and it is written back
after taken, for all three.

";

const BYTES: &str = "Words as bytes: reading them against a straightforward reader of bytes.\n\n";

const ERASURES: &str = "\
Dead cells against elimination over all checks, in rows of N bits; both test the list of places too.
n places are filled in, half of all are refused with 14.

";

const VOTES: &str = "Reading by vote against a vote on the tuned reader's syndromes.\n\n";

const DOUBLE: &str =
    "Two wrong symbols that mask nothing: reading two wrong symbols against clean reading, both the library's.\n\n";

const NEAREST: &str = "\
The nearest codeword against clean reading, both the library's: of the same words where these are undamaged or
random, else of words with an unmasked error of weight 1 to n - 1.

";

const RESTORED: &str = "\
Dead cells and damage together against filling in, both the library's: of the same words without the damage beside
the places, or refused too.

";

const PROPOSALS: &str = "Proposals: right ones checked, against reading the damaged words that they are for.\n\n";

const BUNDLES: &str = "\
A bundle of 64 words in one call against 64 single arrivals of the library's own, and against reading the
words alone.

";

const TARGETS: &str = "\
Targets: reading, writing and the program at most 1.00 of the tuned counterpart, arrivals at most 0.80 of it
where the page is taken and 0.60 where it is again or refused; reading at most 0.50 of the straightforward
reader, as bytes 0.80; dead cells at most 0.50 of the straightforward way for n places and 1.50 for half of
all; reading by vote at most 1.20 of the tuned vote; reading two wrong symbols at most 1.50 of clean reading,
the nearest codeword at most 1.15 of it for undamaged words, 1.50 for random ones and 8.00 for stripes on
(17, 4, 32), checking a proposal at most 1.00 of it; restoring words with n dead cells and nothing else wrong at
most 1.30 of filling them in; a bundle of 64 words at most 0.90 of 64 single arrivals, and on (17, 4, 32) at
most 3.00 of reading them.";

/// Prints a table; gives the rows that miss their target.
type Table = fn() -> Vec<String>;

/// Each with what stands above it.
const TABLES: [(&str, Table); 10] = [
    (WORDS, words::table),
    (BYTES, bytes::table),
    (ERASURES, erasures::table),
    (VOTES, votes::table),
    (DOUBLE, double::table),
    (NEAREST, nearest::table),
    (RESTORED, restored::table),
    (PROPOSALS, proposals::table),
    (BUNDLES, bundles::table),
    ("", program::table),
];

/// Prints all tables.
pub fn run() {
    println!("Times and ratios are medians of {} rounds; all three take turns on the same words.", contest::ROUNDS);
    let mut missed = vec![];
    for (above, table) in TABLES {
        print!("{above}");
        missed.extend(table());
        println!();
    }
    println!("{TARGETS}");
    if missed.is_empty() {
        println!("Every target measured is met.");
    }
    missed.iter().for_each(|row| println!("Target missed: {row}"));
}
