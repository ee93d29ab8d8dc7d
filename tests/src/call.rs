//! One call of one entry, made of the reference or of the library, with all that it leaves behind.

use crate::reference::checker::check;
use crate::reference::coverage::cover;
use crate::reference::double::decode_two;
use crate::reference::energy::bill;
use crate::reference::filler::fill;
use crate::reference::nearest::decode_nearest;
use crate::reference::page::{read_page, write_page};
use crate::reference::reader::{decode, looked};
use crate::reference::restorer::restore;
use crate::reference::session::{Outcome, Session, CALLS_AT, MARKS_AT, PAGES_AT};
use crate::reference::shape::{Refusal, Shape};
use crate::reference::voter::decode_majority;
use crate::reference::writer::{encode, extract};

#[derive(Clone, Copy, Debug, PartialEq, Eq)]
pub enum Entry {
    Encode,
    Extract,
    Decode,
    Looked,
    DecodeMajority,
    DecodeTwo,
    DecodeNearest,
    Fill,
    Restore,
    Check,
    ReadPage,
    Marks,
    WritePage,
    Fresh,
    Count,
    Bill,
    Cover,
    Arrive,
    Batch,
    HostReadWord,
    HostReadPage,
}

impl Entry {
    /// What the entry calls its slices.
    pub fn slice_names(self) -> &'static [&'static str] {
        match self {
            Entry::Encode => &["data", "scratch", "word"],
            Entry::Extract => &["word", "scratch", "data"],
            Entry::Decode | Entry::DecodeMajority | Entry::DecodeTwo => &["word"],
            Entry::DecodeNearest | Entry::HostReadWord => &["word"],
            Entry::Looked => &["word", "looked"],
            Entry::Fill | Entry::Restore => &["places", "word", "scratch"],
            Entry::Check => &["received", "proposed"],
            Entry::ReadPage | Entry::HostReadPage => &["data"],
            Entry::Marks => &["data", "marks"],
            Entry::WritePage => &["marks", "data"],
            Entry::Fresh | Entry::Count => &["session"],
            Entry::Bill => &["session", "prices"],
            Entry::Cover => &["session", "bytes"],
            Entry::Arrive => &["session", "word", "scratch", "outcome"],
            Entry::Batch => &["session", "words", "scratch", "outcomes"],
        }
    }

    /// Those whose shape is in the session.
    pub fn takes_session(self) -> bool {
        matches!(self, Entry::Count | Entry::Bill | Entry::Cover | Entry::Arrive | Entry::Batch)
    }

    /// Those of the host pair, which has three numbers for a shape and the standard slopes.
    pub fn is_of_host(self) -> bool {
        matches!(self, Entry::HostReadWord | Entry::HostReadPage)
    }

    /// Those whose last slice is of bytes.
    pub fn takes_bytes(self) -> bool {
        self.is_of_host() || self == Entry::Cover
    }

    /// Those that are lent their shape.
    pub fn takes_shape(self) -> bool {
        !self.takes_session() && !self.is_of_host()
    }

    /// Whether slice i has one length only and crosses without it: a session, and the outcome of an arrival.
    pub fn is_fixed(self, i: usize) -> bool {
        matches!(self.slice_names()[i], "session" | "outcome")
    }
}

/// An entry with its arguments. The shape of `Count`, `Bill`, `Cover`, `Arrive` and `Batch` is in the session;
/// `number` is the page of `WritePage`, the function of `Count` and the way of `Arrive` and `Batch`. Bytes stand
/// as one number each.
#[derive(Clone, Debug)]
pub struct Call {
    pub entry: Entry,
    pub shape: Shape,
    pub number: u32,
    pub slices: Vec<Vec<u32>>,
}

/// The answer, and every lent slice as it was left.
#[derive(Clone, Debug, PartialEq, Eq)]
pub struct After {
    pub answer: u64,
    pub slices: Vec<Vec<u32>>,
}

/// The reference or the library.
pub type Make = fn(&Call) -> After;

/// An entry's answer as one u32: a refusal is 2^31 plus its number.
pub fn answer_of(result: Result<u32, Refusal>) -> u64 {
    result.map_or_else(|refusal| (1 << 31) + u64::from(refusal.number()), u64::from)
}

pub fn to_bytes(symbols: &[u32]) -> Vec<u32> {
    symbols.iter().flat_map(|symbol| symbol.to_le_bytes()).map(u32::from).collect()
}

fn from_bytes(bytes: &[u32]) -> Vec<u32> {
    let symbol = |four: &[u32]| four.iter().rev().fold(0, |symbol, byte| symbol << 8 | byte);
    bytes.chunks(4).map(symbol).collect()
}

impl Call {
    pub fn new(entry: Entry, shape: Shape, slices: &[&[u32]]) -> Call {
        Call::numbered(entry, shape, 0, slices)
    }

    pub fn numbered(entry: Entry, shape: Shape, number: u32, slices: &[&[u32]]) -> Call {
        let slices = slices.iter().map(|slice| slice.to_vec()).collect();
        Call { entry, shape, number, slices }
    }

    /// The call with another slice i.
    pub fn with_slice(&self, i: usize, values: Vec<u32>) -> Call {
        let mut call = self.clone();
        call.slices[i] = values;
        call
    }

    /// Everything that is lent; long lists are cut off.
    pub fn text(&self) -> String {
        let slices = self.entry.slice_names().iter().zip(&self.slices);
        let slices: Vec<String> = slices.map(|(name, slice)| slice_text(name, slice)).collect();
        let shape = brief(&self.shape.values());
        format!("{:?} of shape {shape}, number {}, {}", self.entry, self.number, slices.join(", "))
    }

    pub fn on_reference(&self) -> After {
        let shape = self.shape;
        let mut slices = self.slices.clone();
        let answer = match (self.entry, &mut slices[..]) {
            (Entry::Encode, [data, scratch, word]) => answer_of(encode(shape, data, scratch, word).map(|()| 0)),
            (Entry::Extract, [word, scratch, data]) => answer_of(extract(shape, word, scratch, data).map(|()| 0)),
            (Entry::Decode, [word]) => answer_of(decode(shape, word)),
            (Entry::Looked, [word, list]) => answer_of(looked(shape, word, list).map(|()| 0)),
            (Entry::DecodeMajority, [word]) => answer_of(decode_majority(shape, word)),
            (Entry::DecodeTwo, [word]) => answer_of(decode_two(shape, word)),
            (Entry::DecodeNearest, [word]) => answer_of(decode_nearest(shape, word)),
            (Entry::Fill, [places, word, scratch]) => answer_of(fill(shape, places, word, scratch)),
            (Entry::Restore, [places, word, scratch]) => answer_of(restore(shape, places, word, scratch)),
            (Entry::Check, [received, proposed]) => answer_of(check(shape, received, proposed)),
            (Entry::ReadPage, [data]) => answer_of(page_answer(shape, data)),
            (Entry::Marks, [data, marks]) => answer_of(marks_part(shape, data, marks)),
            (Entry::WritePage, [marks, data]) => answer_of(write_page(shape, self.number, marks, data).map(|()| 0)),
            (Entry::Fresh, [session]) => answer_of(fresh(shape, session)),
            (Entry::Count, [session]) => count(session, self.number),
            (Entry::Bill, [session, prices]) => bill_answer(session, prices),
            (Entry::Cover, [session, bytes]) => answer_of(cover_answer(session, bytes)),
            (Entry::Arrive, [session, word, scratch, outcome]) => {
                arrive(session, self.number, word, scratch, outcome);
                0
            }
            (Entry::Batch, [session, words, scratch, outcomes]) => {
                answer_of(batch(session, self.number, words, scratch, outcomes))
            }
            (Entry::HostReadWord, [bytes]) => answer_of(host_read_word(shape.standard(), bytes)),
            (Entry::HostReadPage, [bytes]) => answer_of(host_read_page(shape.standard(), bytes)),
            _ => panic!("wrong number of slices for {:?}", self.entry),
        };
        After { answer, slices }
    }
}

fn page_answer(shape: Shape, data: &[u32]) -> Result<u32, Refusal> {
    read_page(shape, data).map(|head| 1024 * head.page + head.marks as u32)
}

/// The page's marks, copied to the front of a list as long as the data; none of a page that is refused.
fn marks_part(shape: Shape, data: &[u32], marks: &mut [u32]) -> Result<u32, Refusal> {
    if marks.len() != data.len() {
        return Err(Refusal::Length);
    }
    let count = read_page(shape, data).map_or(0, |head| head.marks);
    marks[..count].copy_from_slice(data.get(2..2 + count).unwrap_or(&[]));
    Ok(count as u32)
}

fn fresh(shape: Shape, session: &mut [u32]) -> Result<u32, Refusal> {
    session.copy_from_slice(&Session::fresh(shape)?.values());
    Ok(0)
}

/// A refusal is 2^32 plus its number.
fn count(session: &[u32], function: u32) -> u64 {
    let result = Session::from_values(session).count(function);
    result.map_or_else(|refusal| (1 << 32) + u64::from(refusal.number()), u64::from)
}

/// A refusal is 2^63 plus its number.
fn bill_answer(session: &[u32], prices: &[u32]) -> u64 {
    let result = bill(&Session::from_values(session), prices);
    result.unwrap_or_else(|refusal| (1 << 63) + u64::from(refusal.number()))
}

fn cover_answer(session: &[u32], bytes: &mut [u32]) -> Result<u32, Refusal> {
    cover(&Session::from_values(session), bytes)
}

/// The session is written back only after a page was taken.
fn arrive(session: &mut [u32], way: u32, word: &mut [u32], scratch: &mut [u32], outcome: &mut [u32]) {
    let mut state = Session::from_values(session);
    let answer = state.arrive(way, word, scratch);
    outcome.copy_from_slice(&answer.values());
    if let Outcome::Taken { .. } = answer {
        session.copy_from_slice(&state.values());
    }
}

/// The session is written back only after a page was taken.
fn batch(
    session: &mut [u32],
    way: u32,
    words: &mut [u32],
    scratch: &mut [u32],
    outcomes: &mut [u32],
) -> Result<u32, Refusal> {
    let mut state = Session::from_values(session);
    let before = state.figures;
    state.arrive_all(way, words, scratch, outcomes)?;
    if state.figures != before {
        session.copy_from_slice(&state.values());
    }
    Ok(0)
}

fn host_read_word(shape: Shape, bytes: &mut [u32]) -> Result<u32, Refusal> {
    if shape.lawful() && bytes.len() != 4 * shape.word_len() {
        return Err(Refusal::Length);
    }
    let mut word = from_bytes(bytes);
    let corrected = decode(shape, &mut word)?;
    bytes.copy_from_slice(&to_bytes(&word));
    Ok(corrected)
}

fn host_read_page(shape: Shape, bytes: &[u32]) -> Result<u32, Refusal> {
    if shape.lawful() && bytes.len() != 4 * shape.data_len() {
        return Err(Refusal::Length);
    }
    page_answer(shape, &from_bytes(bytes))
}

/// The first thing in which the end of a call differs from the expected one.
pub fn difference(entry: Entry, expected: &After, found: &After) -> Option<String> {
    if expected.answer != found.answer {
        return Some(format!("the answer is {}, expected {}", shown(found.answer), shown(expected.answer)));
    }
    let slices = expected.slices.iter().zip(&found.slices);
    entry.slice_names().iter().zip(slices).find_map(|(name, (expected, found))| {
        let j = (0..expected.len()).find(|&j| found[j] != expected[j])?;
        Some(format!("{name} is left with {} at {j}, expected {}", found[j], expected[j]))
    })
}

fn shown(answer: u64) -> String {
    match answer {
        0x8000_0001..=0x8000_0014 => format!("refusal {}", answer - (1 << 31)),
        0x1_0000_0001..=0x1_0000_0014 => format!("refusal {}", answer - (1 << 32)),
        0x8000_0000_0000_0001..=0x8000_0000_0000_0014 => format!("refusal {}", answer - (1 << 63)),
        _ => answer.to_string(),
    }
}

/// A slice by its name; a session in its parts.
fn slice_text(name: &str, slice: &[u32]) -> String {
    let cut_off = |values: &[u32]| format!("{:.1000}", brief(values));
    if name != "session" {
        return format!("{name} {}", cut_off(slice));
    }
    let (shape, figures) = slice[..MARKS_AT].split_at(PAGES_AT);
    let (marks, calls) = slice[MARKS_AT..].split_at(CALLS_AT - MARKS_AT);
    let [shape, figures, marks, calls] = [shape, figures, marks, calls].map(cut_off);
    format!("session of shape {shape}, figures {figures}, marks {marks}, calls {calls}")
}

/// A list of numbers, long runs of one number told by their length.
pub fn brief(values: &[u32]) -> String {
    let runs = values.chunk_by(|x, y| x == y);
    let shown = runs.map(|run| {
        if run.len() < 4 {
            vec![run[0].to_string(); run.len()].join(" ")
        } else {
            format!("{}(x{})", run[0], run.len())
        }
    });
    format!("[{}]", shown.collect::<Vec<String>>().join(" "))
}
