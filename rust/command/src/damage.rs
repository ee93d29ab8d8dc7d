//! Damage to a word, of a kind and from a seed.

use shaftglimmer::{check, Refusal, Shape};

/// Which damage.
#[derive(Clone, Copy, PartialEq, Eq)]
pub enum Kind {
    /// What the way of this name undoes.
    Clean,
    Vote,
    Two,
    Nearest,
    /// Two symbols of one row, changed alike, so that the row's check hides it.
    Hidden,
}

pub const KINDS: [(&str, Kind); 5] = [
    ("clean", Kind::Clean),
    ("vote", Kind::Vote),
    ("two", Kind::Two),
    ("nearest", Kind::Nearest),
    ("hidden", Kind::Hidden),
];

pub struct Damage {
    kind: Kind,
    random: Random,
}

impl Damage {
    /// Damage to two symbols can't be undone with two directions.
    pub fn new(kind: Kind, seed: u64, shape: &Shape) -> Result<Damage, Refusal> {
        if shape.n() == 2 && matches!(kind, Kind::Two | Kind::Hidden) {
            return Err(Refusal::Directions);
        }
        Ok(Damage { kind, random: Random(seed) })
    }

    /// Damages a codeword in one symbol at least.
    pub fn add(&mut self, shape: &Shape, word: &mut [u32]) {
        let stored = word.to_vec();
        loop {
            self.once(shape, word);
            if self.kind != Kind::Clean || check(shape, word, &stored) == Ok(true) {
                return;
            }
            word.copy_from_slice(&stored);
        }
    }

    fn once(&mut self, shape: &Shape, word: &mut [u32]) {
        let most = match self.kind {
            Kind::Clean | Kind::Nearest => shape.n() - 1,
            Kind::Vote => shape.n() / 2,
            Kind::Two => 2,
            Kind::Hidden => return self.hide(shape, word),
        };
        let mut places: Vec<usize> = (0..word.len()).collect();
        for _ in 0..1 + self.random.below(most.into()) {
            let place = places.swap_remove(self.random.below(places.len() as u64) as usize);
            word[place] ^= self.error(shape);
        }
    }

    fn hide(&mut self, shape: &Shape, word: &mut [u32]) {
        let (q, error) = (u64::from(shape.q()), self.error(shape));
        let (row, first, step) = (self.random.below(q), self.random.below(q), 1 + self.random.below(q - 1));
        for column in [first, (first + step) % q] {
            word[(row * q + column) as usize] ^= error;
        }
    }

    /// A nonzero number of the shape's width.
    fn error(&mut self, shape: &Shape) -> u32 {
        1 + self.random.below((1 << shape.b()) - 1) as u32
    }
}

/// Random numbers from a seed (SplitMix64).
struct Random(u64);

impl Random {
    /// From 0 to bound - 1.
    fn below(&mut self, bound: u64) -> u64 {
        self.0 = self.0.wrapping_add(0x9e37_79b9_7f4a_7c15);
        let mut mixed = self.0;
        mixed = (mixed ^ (mixed >> 30)).wrapping_mul(0xbf58_476d_1ce4_e5b9);
        mixed = (mixed ^ (mixed >> 27)).wrapping_mul(0x94d0_49bb_1331_11eb);
        (mixed ^ (mixed >> 31)) % bound
    }
}
