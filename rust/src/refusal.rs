use core::fmt;

/// The refusals, each with its number, its name, when it comes and what to do about it, as docs/ANSWERS.md has them.
macro_rules! refusals {
    ($($variant:ident = $number:literal, $name:literal, $meaning:literal, $advice:literal;)*) => {
        /// Why a call was refused. A refused call changes nothing that was lent to it, working space apart.
        ///
        /// ```
        /// use shaftglimmer::{Refusal, Shape};
        ///
        /// let refusal = Shape::new(9, 2, 8).unwrap_err();
        /// assert_eq!(refusal, Refusal::Shape);
        /// assert_eq!((refusal.number(), refusal.name()), (1, "shape"));
        /// println!("{refusal} {}", refusal.advice());
        /// ```
        #[derive(Clone, Copy, PartialEq, Eq, PartialOrd, Ord, Hash)]
        #[non_exhaustive]
        pub enum Refusal {
            $(#[doc = concat!($number, ": ", $meaning)] $variant = $number,)*
        }

        impl Refusal {
            /// All of them, in the order of their numbers.
            pub const ALL: [Refusal; 20] = [$(Refusal::$variant),*];

            /// The refusal with this number.
            pub const fn from_number(number: u32) -> Option<Refusal> {
                match number {
                    $($number => Some(Refusal::$variant),)*
                    _ => None,
                }
            }

            /// The trade's word for it, or the rules' where the trade has none.
            pub const fn name(self) -> &'static str {
                match self {
                    $(Refusal::$variant => $name,)*
                }
            }

            /// When it comes.
            pub const fn meaning(self) -> &'static str {
                match self {
                    $(Refusal::$variant => $meaning,)*
                }
            }

            /// What to do about it.
            pub const fn advice(self) -> &'static str {
                match self {
                    $(Refusal::$variant => $advice,)*
                }
            }
        }
    };
}

refusals! {
    Shape = 1, "shape",
        "q, n or b is outside its list: q is one of 3, 5, 7, 11, 13, 17, 19, 23, 29, 31; n goes from 2 to the smaller of q and 8; b goes from 1 to 32. Or an arrival names a way of reading other than 0, 1 and 2.",
        "Correct line 2 of the capture, or the shape or the way that was handed in.";
    Length = 2, "length",
        "A word line does not have q×q values. Or a lent slice has the wrong length.",
        "Check that shape and capture belong together. A single such line was cut, or run together with another: have the page sent again.";
    Width = 3, "width",
        "A symbol is 2^b or more.",
        "Check b. If it is right, the line was damaged where the code does not reach: have the page sent again.";
    Uncorrectable = 4, "damage",
        "No unmasked damage to at most n - 1 symbols explains the word. (Unmasked damage is what the trade calls clean: no check hides it.)",
        "With the library read the nearest codeword, which undoes hidden damage too. Otherwise have the page sent again. The word is left as it came.";
    Page = 5, "page",
        "The page number is 1024 or more.",
        "The word is no page of this format: check the shape, then the sender.";
    Count = 6, "count",
        "There are more marks than a page holds, (q - 1)(q + 1 - n) - 2.",
        "The word is no page of this format: check the shape, then the sender.";
    Function = 7, "function",
        "A function number is above 255.",
        "The word is no page of this format: check the shape, then the sender. In a count query, ask for 0 to 255.";
    Tail = 8, "tail",
        "A symbol after the last mark is not zero.",
        "The word is no page of this format: check the shape, then the sender.";
    Overflow = 9, "worn",
        "A count would pass 2^32 - 1. Only a session that was not grown from a fresh one meets it.",
        "Begin a fresh session.";
    Syntax = 10, "text",
        "A line is malformed, too long, or without its newline. Or one of the first three lines is missing, or is not `q n b`, three values, `word`.",
        "Look at that line. The usual causes are tabs, doubled or trailing spaces, carriage returns, leading zeros, and a cut end.";
    Figures = 11, "figures",
        "The two figures of a session, pages taken and lowest page missing, are not what its page marks say. Only a session from elsewhere meets it.",
        "Have the session handed over again whole, or begin a fresh one.";
    Places = 12, "places",
        "The list of dead cells is not strictly rising, or names a place beyond the word.",
        "Sort the list and drop repeats. Check that list and shape belong together.";
    Unfillable = 13, "unfillable",
        "No codeword agrees with the symbols outside the list.",
        "There is damage outside the list: restore the word with the same list, which undoes it as far as it can be told. Otherwise have the page sent again.";
    Ambiguous = 14, "ambiguous",
        "The list leaves more than one codeword. It never comes with up to 2n - 1 places.",
        "Too many cells are gone for this word: have the page sent again over other cells.";
    NoMajority = 15, "no majority",
        "Reading by vote: no codeword differs from the word in at most n/2 symbols.",
        "Read it the clean way, which undoes up to n - 1 symbols where no check hides the damage, or read the nearest codeword. Or have the page sent again. The word is left as it came.";
    Directions = 16, "directions",
        "Reading two wrong symbols: the shape has two directions, and two wrong symbols can't be told there.",
        "Read the word the clean way or by vote.";
    BeyondTwo = 17, "beyond two",
        "Reading two wrong symbols: no codeword differs from the word in at most two.",
        "With n of 4 or more read the nearest codeword, or try another way, which may undo more. Otherwise have the page sent again. The word is left as it came.";
    Slope = 18, "slope",
        "One of the first n - 1 slopes is not below q, or stands twice.",
        "Correct the slopes that were handed in.";
    Bill = 19, "bill",
        "Calls times price come to more than 2^64 - 1 thousandths of a picojoule. The pages of a recording do not have so many marks.",
        "Check the counts that were handed in.";
    Far = 20, "far",
        "No codeword is within reach. Reading the nearest codeword: none differs from the word in at most n - 1 symbols. Restoring a word with f dead cells: none differs in at most (2n - 1 - f)/2 symbols outside the list, rounded down, or in none if f is 2n - 1 or more.",
        "If the memory test names dead cells, restore the word with the list of all of them. Otherwise have the page sent again: no other reading undoes more. The word is left as it came.";
}

impl Refusal {
    /// Its number, 1 to 20.
    pub const fn number(self) -> u32 {
        self as u32
    }
}

impl fmt::Display for Refusal {
    fn fmt(&self, f: &mut fmt::Formatter<'_>) -> fmt::Result {
        write!(f, "refusal {} ({}): {}", self.number(), self.name(), self.meaning())
    }
}

/// The same as [`Display`](fmt::Display), so that a `main` that gives it as its error says what is wrong.
impl fmt::Debug for Refusal {
    fn fmt(&self, f: &mut fmt::Formatter<'_>) -> fmt::Result {
        fmt::Display::fmt(self, f)
    }
}

#[cfg(feature = "std")]
impl std::error::Error for Refusal {}

/// The refusal with a number that the library gave. It gives 1 to 20; for a number that only a later library can give
/// 10 has to stand.
pub(crate) fn numbered(number: u32) -> Refusal {
    Refusal::from_number(number).unwrap_or(Refusal::Syntax)
}

/// What an answer says: a refusal is 2^31 plus its number.
pub(crate) fn answered(answer: u32) -> Result<u32, Refusal> {
    match answer.checked_sub(1 << 31) {
        Some(number) => Err(numbered(number)),
        None => Ok(answer),
    }
}

/// The same of an answer that says nothing else.
pub(crate) fn done(answer: u32) -> Result<(), Refusal> {
    answered(answer).map(|_| ())
}
