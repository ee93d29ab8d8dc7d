//! Recordings, and captures of them as text in the house form.

use crate::damage::{damaged, make, unmasked, Error, Style};
use crate::random::Random;
use crate::reference::page::{page_symbols, FUNCTIONS, IDLE, PAGES};
use crate::reference::program::tally;
use crate::reference::shape::Shape;
use crate::reference::writer::codeword;

#[derive(Clone, Debug)]
pub struct Page {
    pub number: u32,
    pub marks: Vec<u32>,
}

impl Page {
    /// A page that the shape's width can hold.
    pub fn random(shape: Shape, number: u32, random: &mut Random) -> Page {
        let most = most_marks(shape);
        let count = match random.below(8) {
            0 => 0,
            1 => most,
            _ => random.below(most + 1),
        };
        let functions = FUNCTIONS.min(shape.largest() as usize + 1).min(1 << random.below(9));
        let marks = (0..count).map(|_| random.below(functions) as u32).collect();
        Page { number, marks }
    }

    /// The same with any number that the width can hold.
    pub fn any(shape: Shape, random: &mut Random) -> Page {
        let number = random.below(page_numbers(shape)) as u32;
        Page::random(shape, number, random)
    }

    /// A page whose marks come in runs of one function each, every second run idle.
    pub fn in_runs(shape: Shape, number: u32, random: &mut Random) -> Page {
        let count = random.below(most_marks(shape) + 1);
        let mut idle = random.one_in(2);
        let mut marks = vec![];
        while marks.len() < count {
            let function = if idle { IDLE } else { counted(shape, random) };
            let longest = random.pick(&[1, 4, 16, 64]);
            marks.extend(vec![function; 1 + random.below(longest)]);
            idle = !idle;
        }
        marks.truncate(count);
        Page { number, marks }
    }

    /// The functions of the marks that count, one for each of them, in order.
    pub fn calls(&self) -> impl DoubleEndedIterator<Item = usize> + '_ {
        self.marks.iter().filter(|&&mark| mark != IDLE).map(|&mark| mark as usize)
    }

    pub fn symbols(&self, shape: Shape) -> Vec<u32> {
        page_symbols(shape, self.number, &self.marks)
    }

    pub fn codeword(&self, shape: Shape) -> Vec<u32> {
        codeword(shape, &self.symbols(shape))
    }

    pub fn damaged(&self, shape: Shape, error: &Error) -> Vec<u32> {
        damaged(&self.codeword(shape), error)
    }
}

/// How many page numbers the shape's width can hold.
pub fn page_numbers(shape: Shape) -> usize {
    PAGES.min((shape.largest() as usize).saturating_add(1))
}

/// How many marks of a page the shape's width can hold the number of.
pub fn most_marks(shape: Shape) -> usize {
    shape.most_marks().min(shape.largest() as usize)
}

/// A function whose marks count, often the first or the last that the shape's width can hold.
pub fn counted(shape: Shape, random: &mut Random) -> u32 {
    let last = shape.largest().min(FUNCTIONS as u32 - 1);
    let any = 1 + random.below(last as usize) as u32;
    random.pick(&[1, last, any])
}

/// Up to `count` pages with different numbers.
pub fn recording(shape: Shape, count: usize, random: &mut Random) -> Vec<Page> {
    recording_of(shape, count, Page::random, random)
}

/// The same, each page made by `page`.
pub fn recording_of(
    shape: Shape,
    count: usize,
    page: fn(Shape, u32, &mut Random) -> Page,
    random: &mut Random,
) -> Vec<Page> {
    let mut numbers: Vec<u32> = (0..page_numbers(shape) as u32).collect();
    random.shuffle(&mut numbers);
    numbers.truncate(count);
    numbers.into_iter().map(|number| page(shape, number, random)).collect()
}

/// How many marks of each function from 1 to 255 the pages have; nothing for function 0.
pub fn own_tally<'a>(pages: impl IntoIterator<Item = &'a Page>) -> Vec<u32> {
    let mut marks = vec![0; FUNCTIONS];
    pages.into_iter().flat_map(|page| &page.marks).for_each(|&mark| marks[mark as usize] += 1);
    marks[0] = 0;
    marks
}

/// Lines 1 to 3.
pub fn heading(shape: Shape) -> String {
    format!("q n b\n{} {} {}\nword\n", shape.q, shape.n, shape.b)
}

/// Values parted by single spaces, with the newline.
pub fn line(values: &[u32]) -> String {
    let values: Vec<String> = values.iter().map(u32::to_string).collect();
    values.join(" ") + "\n"
}

/// The word lines of a capture: each page up to three times, half of them damaged, in any order, and
/// some lines that are refused.
pub fn word_lines(shape: Shape, pages: &[Page], random: &mut Random) -> Vec<String> {
    let mut lines = vec![];
    for page in pages {
        for _ in 0..1 + random.below(3) {
            let weight = random.below(shape.n as usize) * random.below(2);
            let error = unmasked(shape, weight, random);
            lines.push(line(&page.damaged(shape, &error)));
        }
        if random.one_in(12) {
            let refused = refused_line(shape, page, random);
            lines.extend(Some(refused).filter(|line| is_refused(shape, line)));
        }
    }
    random.shuffle(&mut lines);
    lines
}

pub fn text(shape: Shape, pages: &[Page], random: &mut Random) -> String {
    heading(shape) + &word_lines(shape, pages, random).concat()
}

/// A page's line with one thing wrong with it, if the shape's width allows that.
fn refused_line(shape: Shape, page: &Page, random: &mut Random) -> String {
    let mut data = page.symbols(shape);
    let (last, most) = (data.len() - 1, shape.most_marks() as u32);
    match random.below(8) {
        0 => return line(&page.codeword(shape)).replacen(' ', "  ", 1),
        1 => return line(&page.codeword(shape)[1..]),
        2 => return line(&page.damaged(shape, &vec![(0, shape.largest().saturating_add(1))])),
        3 => data[0] = 1024 & shape.largest(),
        4 => data[1] = (most + 1) & shape.largest(),
        5 => data[last] = 256 & shape.largest(),
        6 => data[last] = 1,
        _ => {
            let weight = 2 + random.below(shape.n as usize);
            let error = make(Style::Masked, shape, weight, random);
            return line(&page.damaged(shape, &error));
        }
    }
    line(&codeword(shape, &data))
}

fn is_refused(shape: Shape, line: &str) -> bool {
    let output = tally((heading(shape) + line).as_bytes());
    output.starts_with(b"outcome page fixed\nrefused")
}
