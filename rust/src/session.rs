use crate::outcome::{Outcome, Outcomes, Way};
use crate::refusal::{answered, done, numbered};
use crate::{sys, Coverage, Refusal, Shape};
use core::fmt;
use core::mem::{align_of, size_of, transmute};

/// A session: which pages have come, and how often each function was called.
///
/// It has the layout of the 1,292 numbers that cross to the library: its shape's, how many pages are taken, the lowest
/// page not taken, a mark for each page, a count for each function.
///
/// ```
/// use shaftglimmer::{Outcome, Refusal, Session, Shape, Way};
///
/// let mut session = Session::fresh(&Shape::new(3, 2, 8)?)?;
/// let taken = session.arrive(Way::Clean, &mut [5, 2, 7, 3, 1, 2, 6, 3, 5]);
/// let again = session.arrive(Way::Clean, &mut [12, 2, 7, 3, 1, 2, 6, 3, 5]);
/// assert_eq!(taken, Outcome::Taken { page: 1, changed: 0 });
/// assert_eq!(again, Outcome::Again { page: 1, changed: 1 });
/// assert_eq!(session.tally().collect::<Vec<_>>(), [(3, 1), (5, 1)]);
/// # Ok::<(), Refusal>(())
/// ```
#[derive(Clone, PartialEq, Eq)]
#[repr(C)]
pub struct Session {
    shape: Shape,
    pages: u32,
    lowest: u32,
    taken: [u32; 1024],
    calls: [u32; 256],
}

const _: () = assert!(size_of::<Session>() == 4 * Session::VALUES && align_of::<Session>() == 4);

impl Session {
    /// How many numbers a session is.
    pub const VALUES: usize = 1292;

    /// How many bytes a saved session is.
    pub const BYTES: usize = 4 * Session::VALUES;

    /// A session to which no page has come.
    pub fn fresh(shape: &Shape) -> Result<Session, Refusal> {
        let mut session = Session { shape: *shape, pages: 0, lowest: 0, taken: [0; 1024], calls: [0; 256] };
        done(sys::fresh(shape, &mut session)).map(|()| session)
    }

    /// A session that was saved. Refuses with 1, 18 or 11: its shape, or its two figures beside its page marks. A changed
    /// count can't be told, nor another lawful shape, nor other page marks that leave the two figures right.
    ///
    /// ```
    /// use shaftglimmer::{Refusal, Session, Shape};
    ///
    /// let session = Session::fresh(&Shape::new(3, 2, 8)?)?;
    /// let mut saved = session.to_values();
    /// assert_eq!(Session::from_values(&saved)?, session);
    /// saved[10] = 1;
    /// assert_eq!(Session::from_values(&saved), Err(Refusal::Figures));
    /// # Ok::<(), Refusal>(())
    /// ```
    pub fn from_values(values: &[u32; Session::VALUES]) -> Result<Session, Refusal> {
        // SAFETY: a session is 1,292 numbers of u32 without a gap, as `repr(C)` lays them out, and any numbers are one.
        let session = unsafe { transmute::<[u32; Session::VALUES], Session>(*values) };
        session.count(0).map(|_| session)
    }

    /// Its numbers as bytes, four each, low byte first: for a file, the same on every machine.
    ///
    /// ```
    /// use shaftglimmer::{Refusal, Session, Shape};
    ///
    /// let session = Session::fresh(&Shape::new(3, 2, 8)?)?;
    /// let saved = session.to_bytes();
    /// assert_eq!(Session::from_bytes(&saved)?, session);
    /// assert_eq!(Session::from_bytes(&saved[1..]), Err(Refusal::Length));
    /// # Ok::<(), Refusal>(())
    /// ```
    pub fn to_bytes(&self) -> [u8; Session::BYTES] {
        let mut bytes = [0; Session::BYTES];
        for (four, value) in bytes.chunks_exact_mut(4).zip(self.as_values()) {
            four.copy_from_slice(&value.to_le_bytes());
        }
        bytes
    }

    /// The session with these bytes. Refuses another length with 2, and otherwise what
    /// [`from_values`](Session::from_values) refuses.
    pub fn from_bytes(bytes: &[u8]) -> Result<Session, Refusal> {
        if bytes.len() != Session::BYTES {
            return Err(Refusal::Length);
        }
        let mut values = [0; Session::VALUES];
        for (value, four) in values.iter_mut().zip(bytes.chunks_exact(4)) {
            *value = four.iter().rev().fold(0, |value, &byte| value << 8 | u32::from(byte));
        }
        Session::from_values(&values)
    }

    /// Its numbers, for saving.
    pub fn to_values(&self) -> [u32; Session::VALUES] {
        *self.as_values()
    }

    /// Its numbers where they are.
    pub fn as_values(&self) -> &[u32; Session::VALUES] {
        // SAFETY: a session is 1,292 numbers of u32 without a gap, as `repr(C)` lays them out; the array lives and is
        // lent as long as the session.
        unsafe { &*(self as *const Session).cast() }
    }

    /// Lets a word arrive: reads it this way, restores it, and counts the marks of its page if that has not come yet.
    ///
    /// A word whose page is taken or again is left restored, a refused one as it came.
    #[cfg(feature = "alloc")]
    pub fn arrive(&mut self, way: Way, word: &mut [u32]) -> Outcome {
        self.arrive_with(way, word, &mut crate::words::scratch(&self.shape))
    }

    /// [`arrive`](Session::arrive) with lent working space.
    pub fn arrive_with(&mut self, way: Way, word: &mut [u32], scratch: &mut [u32]) -> Outcome {
        let mut outcome = [0; 3];
        match done(sys::arrive(self, way.number(), word, &mut outcome, scratch)) {
            Ok(()) => Outcome::written(&outcome),
            Err(refusal) => Outcome::Refused(refusal),
        }
    }

    /// Lets 1 to 64 words arrive that stand one behind the other, all read one way. It is as if they had arrived one by
    /// one. Refuses a whole call with 16 or 2, and has then changed nothing.
    ///
    /// ```
    /// use shaftglimmer::{Refusal, Session, Shape, Way};
    ///
    /// let mut session = Session::fresh(&Shape::new(3, 2, 8)?)?;
    /// let mut words = [5, 2, 7, 3, 1, 2, 6, 3, 5, 12, 2, 7, 3, 1, 2, 6, 3, 5];
    /// for outcome in session.arrive_all(Way::Clean, &mut words)?.iter() {
    ///     println!("{outcome}");
    /// }
    /// assert_eq!(session.pages(), 1);
    /// # Ok::<(), Refusal>(())
    /// ```
    #[cfg(feature = "alloc")]
    pub fn arrive_all(&mut self, way: Way, words: &mut [u32]) -> Result<Outcomes, Refusal> {
        self.arrive_all_with(way, words, &mut crate::words::scratch(&self.shape))
    }

    /// [`arrive_all`](Session::arrive_all) with lent working space.
    pub fn arrive_all_with(&mut self, way: Way, words: &mut [u32], scratch: &mut [u32]) -> Result<Outcomes, Refusal> {
        let mut outcomes = [0; Outcomes::VALUES];
        done(sys::arrive_all(self, way.number(), words, &mut outcomes, scratch))?;
        Ok(Outcomes::written(outcomes, words.len().checked_div(self.shape.word_length()).unwrap_or(0)))
    }

    /// The shape of its words.
    pub const fn shape(&self) -> &Shape {
        &self.shape
    }

    /// How many pages are taken.
    pub const fn pages(&self) -> u32 {
        self.pages
    }

    /// The lowest page number that is not taken, 1024 if all are.
    pub const fn lowest(&self) -> u32 {
        self.lowest
    }

    /// Whether the page with this number is taken.
    pub fn has_taken(&self, page: u32) -> bool {
        self.taken.get(page as usize).is_some_and(|&mark| mark != 0)
    }

    /// The page numbers that are not taken, rising, up to 1023.
    pub fn missing(&self) -> impl Iterator<Item = u32> + '_ {
        (0..1024).filter(|&page| !self.has_taken(page))
    }

    /// How often each function was called.
    pub const fn calls(&self) -> &[u32; 256] {
        &self.calls
    }

    /// The functions that were called, rising, each with how often.
    pub fn tally(&self) -> impl Iterator<Item = (u8, u32)> + '_ {
        (0..=u8::MAX).zip(self.calls).filter(|&(_, calls)| calls > 0)
    }

    /// How often this function was called. Refuses with 7.
    pub fn count(&self, function: u32) -> Result<u32, Refusal> {
        // A refusal is 2^32 plus its number.
        let answer = sys::count(self, function);
        u32::try_from(answer).map_err(|_| numbered(answer as u32))
    }

    /// The energy of the calls in whole picojoules, rounded up once; prices are in thousandths of a picojoule for one
    /// call. Function 0, the idle loop, costs nothing. Refuses with 19.
    ///
    /// ```
    /// use shaftglimmer::{Refusal, Session, Shape, Way};
    ///
    /// let mut session = Session::fresh(&Shape::new(3, 2, 8)?)?;
    /// session.arrive(Way::Clean, &mut [5, 2, 7, 3, 1, 2, 6, 3, 5]);
    /// assert_eq!(session.bill(&[600; 256])?, 2);
    /// # Ok::<(), Refusal>(())
    /// ```
    pub fn bill(&self, prices: &[u32; 256]) -> Result<u64, Refusal> {
        // A refusal is 2^63 plus its number.
        let answer = sys::bill(self, prices);
        match answer.checked_sub(1 << 63) {
            Some(number) => Err(numbered(number as u32)),
            None => Ok(answer),
        }
    }

    /// Which functions were called at all.
    pub fn cover(&self) -> Result<Coverage, Refusal> {
        let mut bytes = [0; 256];
        let functions = answered(sys::cover(self, &mut bytes))?;
        Ok(Coverage::written(bytes, functions))
    }
}

impl fmt::Debug for Session {
    fn fmt(&self, f: &mut fmt::Formatter<'_>) -> fmt::Result {
        let mut session = f.debug_struct("Session");
        session.field("shape", &self.shape).field("pages", &self.pages).field("lowest", &self.lowest);
        session.finish_non_exhaustive()
    }
}
