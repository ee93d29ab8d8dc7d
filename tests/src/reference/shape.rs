//! Shapes, the lengths that follow from them, and the refusals.

pub const ORDERS: [u32; 10] = [3, 5, 7, 11, 13, 17, 19, 23, 29, 31];

/// How many slopes a shape carries, and how many values it crosses as.
pub const SLOPES: usize = 7;
pub const SHAPE_LEN: usize = 3 + SLOPES;

/// The standard slopes.
pub const STANDARD: [u32; SLOPES] = [0, 1, 2, 3, 4, 5, 6];

/// RULES 6; the discriminant is the number.
#[derive(Clone, Copy, Debug, PartialEq, Eq)]
pub enum Refusal {
    Shape = 1,
    Length = 2,
    Width = 3,
    Uncorrectable = 4,
    Page = 5,
    Count = 6,
    Function = 7,
    Tail = 8,
    Overflow = 9,
    Syntax = 10,
    Figures = 11,
    Places = 12,
    Unfillable = 13,
    Ambiguous = 14,
    NoMajority = 15,
    Directions = 16,
    BeyondTwo = 17,
    Slope = 18,
    Bill = 19,
    Far = 20,
}

impl Refusal {
    pub fn number(self) -> u32 {
        self as u32
    }
}

/// Order q, directions n, width b; possibly outside their lists. Then the slopes of the directions
/// from 1 on, of which only the first n - 1 count.
#[derive(Clone, Copy, Debug, PartialEq, Eq)]
pub struct Shape {
    pub q: u32,
    pub n: u32,
    pub b: u32,
    pub slopes: [u32; SLOPES],
}

impl Shape {
    /// With the standard slopes.
    pub const fn new(q: u32, n: u32, b: u32) -> Shape {
        Shape { q, n, b, slopes: STANDARD }
    }

    pub const fn with_slopes(self, slopes: [u32; SLOPES]) -> Shape {
        Shape { slopes, ..self }
    }

    /// The same q, n and b with the standard slopes.
    pub const fn standard(self) -> Shape {
        self.with_slopes(STANDARD)
    }

    /// Test 1: q, n and b are in their lists.
    fn regular(self) -> bool {
        ORDERS.contains(&self.q) && (2..=self.q.min(8)).contains(&self.n) && (1..=32).contains(&self.b)
    }

    /// Test 18, past test 1: the slopes that count are below q, and none stands twice.
    fn sloped(self) -> bool {
        let slopes = self.own_slopes();
        let fits = |(i, slope): (usize, &u32)| *slope < self.q && !slopes[..i].contains(slope);
        slopes.iter().enumerate().all(fits)
    }

    /// Tests 1 and 18, with which every entry begins that is given a shape or a session.
    pub fn judge(self) -> Result<(), Refusal> {
        if !self.regular() {
            Err(Refusal::Shape)
        } else if !self.sloped() {
            Err(Refusal::Slope)
        } else {
            Ok(())
        }
    }

    pub fn lawful(self) -> bool {
        self.judge().is_ok()
    }

    /// The slopes that count, those of directions 1 to n - 1.
    pub fn own_slopes(&self) -> &[u32] {
        &self.slopes[..self.most_errors()]
    }

    /// As it crosses: q, n, b, the slopes.
    pub fn values(self) -> [u32; SHAPE_LEN] {
        let [s1, s2, s3, s4, s5, s6, s7] = self.slopes;
        [self.q, self.n, self.b, s1, s2, s3, s4, s5, s6, s7]
    }

    /// From exactly SHAPE_LEN values.
    pub fn from_values(values: &[u32]) -> Shape {
        Shape::new(values[0], values[1], values[2]).with_slopes(std::array::from_fn(|i| values[3 + i]))
    }

    /// N, the symbols of a word.
    pub fn word_len(self) -> usize {
        (self.q * self.q) as usize
    }

    /// K, the information symbols of a word.
    pub fn data_len(self) -> usize {
        ((self.q - 1) * (self.q + 1 - self.n)) as usize
    }

    /// The number of checks.
    pub fn checks(self) -> usize {
        (self.n * self.q) as usize
    }

    /// S, the values of u32 that hold N bits.
    pub fn row_len(self) -> usize {
        self.word_len().div_ceil(32)
    }

    /// A row for each check, but for the last of every direction from 1 on (request N7).
    pub fn scratch_len(self) -> usize {
        (self.checks() - (self.n as usize - 1)) * self.row_len()
    }

    /// The most marks that a page can hold.
    pub fn most_marks(self) -> usize {
        self.data_len() - 2
    }

    /// m, the most symbols that reading changes.
    pub fn most_errors(self) -> usize {
        self.n as usize - 1
    }

    /// The most symbols that reading by vote changes.
    pub fn most_votes(self) -> usize {
        self.n as usize / 2
    }

    /// 2^b - 1.
    pub fn largest(self) -> u32 {
        u32::MAX >> (32 - self.b)
    }

    pub fn fits(self, symbol: u32) -> bool {
        symbol <= self.largest()
    }

    pub fn all_fit(self, symbols: &[u32]) -> bool {
        symbols.iter().all(|&symbol| self.fits(symbol))
    }

    /// Tests 2 and 3 of symbols that have to be so many.
    pub fn judge_symbols(self, symbols: &[u32], length: usize) -> Result<(), Refusal> {
        if symbols.len() != length {
            Err(Refusal::Length)
        } else if !self.all_fit(symbols) {
            Err(Refusal::Width)
        } else {
            Ok(())
        }
    }
}

/// Every lawful (q, n).
pub fn orders_and_directions() -> Vec<(u32, u32)> {
    let pairs = |q: u32| (2..=q.min(8)).map(move |n| (q, n));
    ORDERS.into_iter().flat_map(pairs).collect()
}

/// Every lawful shape of these q, n and b, but for the slopes that don't count; only for small q and n.
pub fn all_slopes(q: u32, n: u32, b: u32) -> Vec<Shape> {
    let mut shapes = vec![Shape::new(q, n, b)];
    for place in 0..n as usize - 1 {
        let with = |shape: &Shape, slope: u32| {
            let mut slopes = shape.slopes;
            slopes[place] = slope;
            shape.with_slopes(slopes)
        };
        let lists = |shape: Shape| (0..q).map(move |slope| with(&shape, slope));
        shapes = shapes.into_iter().flat_map(lists).collect();
    }
    shapes.retain(|shape| shape.lawful());
    shapes
}
