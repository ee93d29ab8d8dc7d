//! Random numbers from a seed (SplitMix64).

use crate::reference::shape::{Shape, SLOPES};
use crate::reference::writer::codeword;

pub struct Random(u64);

impl Random {
    /// A stream of its own for each name, so that a test draws the same whatever else is run.
    pub fn new(seed: u64, name: &str) -> Random {
        let hash = |hash: u64, byte: u8| (hash ^ u64::from(byte)).wrapping_mul(0x0000_0100_0000_01b3);
        Random(name.bytes().fold(seed ^ 0xcbf2_9ce4_8422_2325, hash))
    }

    fn draw(&mut self) -> u64 {
        self.0 = self.0.wrapping_add(0x9e37_79b9_7f4a_7c15);
        let mut mixed = self.0;
        mixed = (mixed ^ (mixed >> 30)).wrapping_mul(0xbf58_476d_1ce4_e5b9);
        mixed = (mixed ^ (mixed >> 27)).wrapping_mul(0x94d0_49bb_1331_11eb);
        mixed ^ (mixed >> 31)
    }

    pub fn number(&mut self) -> u32 {
        (self.draw() >> 32) as u32
    }

    /// From 0 to bound - 1.
    pub fn below(&mut self, bound: usize) -> usize {
        (self.draw() % bound as u64) as usize
    }

    pub fn one_in(&mut self, times: usize) -> bool {
        self.below(times) == 0
    }

    pub fn pick<T: Copy>(&mut self, from: &[T]) -> T {
        from[self.below(from.len())]
    }

    pub fn shuffle<T>(&mut self, items: &mut [T]) {
        for i in (1..items.len()).rev() {
            items.swap(i, self.below(i + 1));
        }
    }

    pub fn numbers(&mut self, length: usize) -> Vec<u32> {
        (0..length).map(|_| self.number()).collect()
    }

    /// Numbers below 256.
    pub fn bytes(&mut self, length: usize) -> Vec<u32> {
        (0..length).map(|_| self.number() >> 24).collect()
    }

    /// A lawful shape of these q, n and b: the standard slopes one time in three, else any.
    pub fn shape(&mut self, q: u32, n: u32, b: u32) -> Shape {
        if self.one_in(3) {
            Shape::new(q, n, b)
        } else {
            self.sloped(q, n, b)
        }
    }

    /// A lawful shape whose slopes stand in any order, those that don't count being anything.
    pub fn sloped(&mut self, q: u32, n: u32, b: u32) -> Shape {
        let mut slopes = [0; SLOPES];
        for (place, slope) in slopes.iter_mut().zip(self.positions(n as usize - 1, q as usize)) {
            *place = slope as u32;
        }
        self.other_slopes(Shape::new(q, n, b).with_slopes(slopes))
    }

    /// The same shape with anything for the slopes that don't count: lawful ones, repeats, too large ones.
    pub fn other_slopes(&mut self, shape: Shape) -> Shape {
        let mut slopes = shape.slopes;
        for place in &mut slopes[shape.most_errors()..] {
            let any = [self.below(shape.q as usize) as u32, self.number()];
            *place = self.pick(&[any[0], any[0], shape.slopes[0], shape.q, shape.q + 1, any[1], u32::MAX]);
        }
        shape.with_slopes(slopes)
    }

    /// Below 2^b.
    pub fn symbol(&mut self, shape: Shape) -> u32 {
        self.number() & shape.largest()
    }

    pub fn nonzero_symbol(&mut self, shape: Shape) -> u32 {
        loop {
            let symbol = self.symbol(shape);
            if symbol != 0 {
                return symbol;
            }
        }
    }

    /// Symbols below 2^b: all random, few nonzero, or all as large as can be.
    pub fn symbols(&mut self, shape: Shape, length: usize) -> Vec<u32> {
        match self.below(6) {
            0 => vec![shape.largest(); length],
            1 => (0..length).map(|_| if self.one_in(8) { self.symbol(shape) } else { 0 }).collect(),
            _ => (0..length).map(|_| self.symbol(shape)).collect(),
        }
    }

    /// A codeword with such information symbols.
    pub fn codeword(&mut self, shape: Shape) -> Vec<u32> {
        codeword(shape, &self.symbols(shape, shape.data_len()))
    }

    /// Distinct positions below bound, in no order.
    pub fn positions(&mut self, count: usize, bound: usize) -> Vec<usize> {
        self.more_positions(vec![], count, bound)
    }

    /// These positions and others, up to so many.
    pub fn more_positions(&mut self, mut chosen: Vec<usize>, count: usize, bound: usize) -> Vec<usize> {
        while chosen.len() < count {
            let position = self.below(bound);
            if !chosen.contains(&position) {
                chosen.push(position);
            }
        }
        chosen
    }
}
