//! Elimination over GF(2) on the columns of the check matrix: parity and information positions, and the
//! symbols at given positions that make given check values.

use super::shape::Shape;
use super::square::checks_on;
use std::cell::RefCell;
use std::collections::VecDeque;
use std::rc::Rc;

/// How many shapes' positions a thread remembers.
const REMEMBERED: usize = 16;

/// A vector over GF(2); there are at most 248 checks.
#[derive(Clone, Copy, Default, PartialEq, Eq)]
struct Bits([u64; 4]);

impl Bits {
    fn flip(&mut self, i: usize) {
        self.0[i / 64] ^= 1 << (i % 64);
    }

    fn has(&self, i: usize) -> bool {
        self.0[i / 64] >> (i % 64) & 1 == 1
    }

    fn add(&mut self, other: &Bits) {
        for (word, more) in self.0.iter_mut().zip(other.0) {
            *word ^= more;
        }
    }

    fn lowest(&self) -> Option<usize> {
        let word = self.0.iter().position(|&word| word != 0)?;
        Some(64 * word + self.0[word].trailing_zeros() as usize)
    }

    /// Where it has ones, rising.
    fn ones(mut self) -> impl Iterator<Item = usize> {
        std::iter::from_fn(move || {
            let i = self.lowest()?;
            self.flip(i);
            Some(i)
        })
    }
}

/// What the rules call parity and information positions, for one q and its directions.
pub struct Positions {
    /// The positions whose column is no sum of columns at lower positions, rising.
    pub parity: Vec<usize>,
    /// All others, rising.
    pub information: Vec<usize>,
    /// For each information position, the parity positions whose columns sum to its column.
    pub sums: Vec<Vec<usize>>,
}

/// An independent column, reduced by those before it.
struct Pivot {
    lead: usize,
    column: Bits,
    /// Which of the basis' columns (by index) sum to `column`.
    sum: Bits,
}

/// Independent columns of the check matrix.
#[derive(Default)]
pub struct Basis {
    /// The positions that they are the columns of, in the order they came.
    pub positions: Vec<usize>,
    pivots: Vec<Pivot>,
}

impl Basis {
    /// Takes in position j, unless its column is a sum of columns that are here: then gives their positions.
    pub fn take(&mut self, shape: Shape, j: usize) -> Option<Vec<usize>> {
        let (column, mut sum) = reduce(column(shape, j), &self.pivots);
        match column.lowest() {
            Some(lead) => {
                sum.flip(self.positions.len());
                self.positions.push(j);
                self.pivots.push(Pivot { lead, column, sum });
                None
            }
            None => Some(sum.ones().map(|i| self.positions[i]).collect()),
        }
    }

    /// Whether the column of position j is a sum of columns that are here.
    pub fn spans(&self, shape: Shape, j: usize) -> bool {
        reduce(column(shape, j), &self.pivots).0.lowest().is_none()
    }

    /// The symbols at the positions, in their order, that alone make these check values, if any do.
    pub fn solve(&self, mut values: Vec<u32>) -> Option<Vec<u32>> {
        let mut symbols = vec![0; self.positions.len()];
        for pivot in &self.pivots {
            let value = values[pivot.lead];
            pivot.column.ones().for_each(|check| values[check] ^= value);
            pivot.sum.ones().for_each(|i| symbols[i] ^= value);
        }
        values.iter().all(|&value| value == 0).then_some(symbols)
    }
}

impl Positions {
    /// The positions of a lawful shape; the width and the slopes that don't count play no part.
    pub fn of(shape: Shape) -> Rc<Positions> {
        thread_local! {
            static RECENT: RefCell<VecDeque<(Shape, Rc<Positions>)>> = const { RefCell::new(VecDeque::new()) };
        }
        let same = |other: &Shape| (other.q, other.own_slopes()) == (shape.q, shape.own_slopes());
        RECENT.with_borrow_mut(|recent| {
            if let Some((_, positions)) = recent.iter().find(|(other, _)| same(other)) {
                return positions.clone();
            }
            let positions = Rc::new(Positions::eliminate(shape));
            recent.truncate(REMEMBERED - 1);
            recent.push_front((shape, positions.clone()));
            positions
        })
    }

    fn eliminate(shape: Shape) -> Positions {
        let mut basis = Basis::default();
        let (mut information, mut sums) = (vec![], vec![]);
        for j in 0..shape.word_len() {
            if let Some(sum) = basis.take(shape, j) {
                information.push(j);
                sums.push(sum);
            }
        }
        Positions { parity: basis.positions, information, sums }
    }
}

/// Column j of the check matrix.
fn column(shape: Shape, j: usize) -> Bits {
    let mut bits = Bits::default();
    checks_on(shape, j).for_each(|check| bits.flip(check));
    bits
}

/// The column without the pivots' leads, and which of the basis' columns were added to get there.
/// Each pivot has zeros at the leads before its own, so one pass in order is enough.
fn reduce(mut column: Bits, pivots: &[Pivot]) -> (Bits, Bits) {
    let mut sum = Bits::default();
    for pivot in pivots {
        if column.has(pivot.lead) {
            column.add(&pivot.column);
            sum.add(&pivot.sum);
        }
    }
    (column, sum)
}
