//! Calls of the proved library, through the crate. Where the crate shows less of what is lent than the library
//! has, the call is made by hand too, and both must end alike.

mod own;
mod raw;

use crate::call::{After, Call, Entry};
use crate::reference::page::FUNCTIONS;
use crate::reference::session::{OUTCOMES_LEN, SESSION_LEN, WAYS};
use crate::reference::shape::SHAPE_LEN;
use shaftglimmer::bytes::{read_page, read_word};
use shaftglimmer::{
    check, decode, decode_majority, decode_nearest, decode_two, encode_with, extract_with, fill_with, looked_with,
    parse_page, restore_with, write_page_with, Page, Refusal, Session, Shape, Way,
};

impl Call {
    pub fn on_library(&self) -> After {
        let by_hand = self.by_hand();
        if !self.is_let_through() {
            return by_hand.expect("a call by hand");
        }
        let after = self.by_crate();
        assert!(by_hand.is_none_or(|by_hand| by_hand == after), "{}: it ends otherwise by hand", self.text());
        assert!(self.is_as_by_itself(&after), "{}: the crate by itself ends otherwise", self.text());
        after
    }

    /// Whether the crate lets the call through: not a way that is none, and not a list of another length where it
    /// takes one length only.
    fn is_let_through(&self) -> bool {
        match (self.entry, &self.slices[..]) {
            (Entry::Marks, [data, marks]) => marks.len() == data.len(),
            (Entry::Bill | Entry::Cover, [_, list]) => list.len() == FUNCTIONS,
            (Entry::Arrive, _) => self.number < WAYS,
            (Entry::Batch, [.., outcomes]) => self.number < WAYS && outcomes.len() == OUTCOMES_LEN,
            _ => true,
        }
    }

    fn by_crate(&self) -> After {
        let mut lent_shape = Fenced::new(&self.shape.values());
        let shape = shape_in(lent_shape.lend());
        let mut slices: Vec<Fenced<u32>> = self.slices.iter().map(|slice| Fenced::new(slice)).collect();
        let mut lent: Vec<&mut [u32]> = slices.iter_mut().map(Fenced::lend).collect();
        let answer = match (self.entry, &mut lent[..]) {
            (Entry::Encode, [data, scratch, word]) => done(encode_with(shape, data, word, scratch)),
            (Entry::Extract, [word, scratch, data]) => done(extract_with(shape, word, data, scratch)),
            (Entry::Decode, [word]) => number(decode(shape, word)),
            (Entry::Looked, [word, looked]) => done(looked_with(shape, word, looked)),
            (Entry::DecodeMajority, [word]) => number(decode_majority(shape, word)),
            (Entry::DecodeTwo, [word]) => number(decode_two(shape, word)),
            (Entry::DecodeNearest, [word]) => number(decode_nearest(shape, word)),
            (Entry::Fill, [places, word, scratch]) => number(fill_with(shape, places, word, scratch)),
            (Entry::Restore, [places, word, scratch]) => number(restore_with(shape, places, word, scratch)),
            (Entry::Check, [received, proposed]) => number(check(shape, received, proposed).map(u32::from)),
            (Entry::ReadPage, [data]) => number(parse_page(shape, data).map(page_answer)),
            (Entry::Marks, [data, marks]) => marks_part(shape, data, marks),
            (Entry::WritePage, [marks, data]) => done(write_page_with(shape, self.number, marks, data)),
            (Entry::Fresh, [session]) => done(Session::fresh(shape).map(|fresh| copy(fresh.as_values(), session))),
            (Entry::HostReadWord, [bytes]) => as_bytes(bytes, |bytes| self.read_word(bytes)),
            (Entry::HostReadPage, [bytes]) => as_bytes(bytes, |bytes| self.read_page(bytes)),
            (_, [session, others @ ..]) => self.of_session(session_in(session), others),
            _ => panic!("wrong number of slices for {:?}", self.entry),
        };
        assert!(lent_shape.take_back() == self.shape.values(), "the lent shape was written to");
        After { answer, slices: slices.into_iter().map(Fenced::take_back).collect() }
    }

    /// The entries that take a session.
    fn of_session(&self, session: &mut Session, others: &mut [&mut [u32]]) -> u64 {
        match (self.entry, others) {
            (Entry::Count, []) => wide(session.count(self.number).map(u64::from), 32),
            (Entry::Bill, [prices]) => wide(session.bill((&**prices).try_into().expect("a price for each")), 63),
            (Entry::Cover, [bytes]) => number(session.cover().map(|coverage| {
                copy(&coverage.as_bytes().map(u32::from), bytes);
                coverage.functions()
            })),
            (Entry::Arrive, [word, scratch, outcome]) => {
                copy(&session.arrive_with(self.way(), word, scratch).to_values(), outcome);
                0
            }
            (Entry::Batch, [words, scratch, outcomes]) => {
                let arrived = session.arrive_all_with(self.way(), words, scratch);
                done(arrived.map(|arrived| copy(arrived.as_values(), outcomes)))
            }
            _ => panic!("wrong number of slices for {:?}", self.entry),
        }
    }

    fn way(&self) -> Way {
        Way::from_number(self.number).expect("the number of a way")
    }

    fn read_word(&self, bytes: &mut [u8]) -> u64 {
        number(read_word(self.shape.q, self.shape.n, self.shape.b, bytes))
    }

    fn read_page(&self, bytes: &[u8]) -> u64 {
        let read = read_page(self.shape.q, self.shape.n, self.shape.b, bytes);
        number(read.map(|(page, marks)| 1024 * page + marks))
    }
}

/// A shape by its layout, lawful or not. The crate itself makes lawful ones only.
pub fn shape_in(values: &[u32]) -> &Shape {
    assert_eq!(values.len(), SHAPE_LEN);
    // SAFETY: a shape is ten numbers of u32, of which the library takes any.
    unsafe { &*values.as_ptr().cast() }
}

/// A session by its layout, whatever its shape and its figures.
pub fn session_in(values: &mut [u32]) -> &mut Session {
    assert_eq!(values.len(), SESSION_LEN);
    // SAFETY: a session is 1,292 numbers of u32, of which the library takes any.
    unsafe { &mut *values.as_mut_ptr().cast() }
}

/// An answer as the library gives it: a refusal is 2^31 plus its number.
pub fn number(answer: Result<u32, Refusal>) -> u64 {
    wide(answer.map(u64::from), 31)
}

fn done(answer: Result<(), Refusal>) -> u64 {
    number(answer.map(|()| 0))
}

/// The same where a refusal is another power of two plus its number.
fn wide(answer: Result<u64, Refusal>, power: u32) -> u64 {
    answer.unwrap_or_else(|refusal| (1 << power) + u64::from(refusal.number()))
}

fn copy(from: &[u32], to: &mut [u32]) {
    to.copy_from_slice(from);
}

fn page_answer(page: Page) -> u32 {
    1024 * page.number() + page.marks().len() as u32
}

/// The marks, copied to the front of a list as long as the data; none of a page that is refused.
fn marks_part(shape: &Shape, data: &[u32], marks: &mut [u32]) -> u64 {
    let part: Vec<u8> = parse_page(shape, data).into_iter().flatten().collect();
    for (mark, &function) in marks.iter_mut().zip(&part) {
        *mark = function.into();
    }
    part.len() as u64
}

/// Lends the numbers as bytes, with a fence of their own.
fn as_bytes(numbers: &mut [u32], call: impl FnOnce(&mut [u8]) -> u64) -> u64 {
    let bytes: Vec<u8> = numbers.iter().map(|&number| number as u8).collect();
    let mut lent = Fenced::new(&bytes);
    let answer = call(lent.lend());
    for (number, byte) in numbers.iter_mut().zip(lent.take_back()) {
        *number = byte.into();
    }
    answer
}

/// A slice to lend with numbers on both sides, to see whether anything outside it was written to.
struct Fenced<T>(Vec<T>);

/// How long each side of the fence is.
const SIDE: usize = 16;

impl<T: Copy + From<u8> + PartialEq> Fenced<T> {
    fn new(values: &[T]) -> Fenced<T> {
        let side = [T::from(0x5a); SIDE];
        Fenced([&side, values, &side].concat())
    }

    fn lend(&mut self) -> &mut [T] {
        let end = self.0.len() - SIDE;
        &mut self.0[SIDE..end]
    }

    fn take_back(self) -> Vec<T> {
        let (before, rest) = self.0.split_at(SIDE);
        let (values, after) = rest.split_at(rest.len() - SIDE);
        let whole = before.iter().chain(after).all(|&number| number == T::from(0x5a));
        assert!(whole, "something outside the lent slice was written to");
        values.to_vec()
    }
}
