//! The page in a word's information symbols.

use super::shape::{Refusal, Shape};

pub const PAGES: usize = 1024;
pub const FUNCTIONS: usize = 256;

/// The mark that stands for a return to the idle loop. It is lawful in a page and no call.
pub const IDLE: u32 = 0;

/// A page number and the number of marks.
#[derive(Clone, Copy, Debug, PartialEq, Eq)]
pub struct Head {
    pub page: u32,
    pub marks: usize,
}

pub fn read_page(shape: Shape, data: &[u32]) -> Result<Head, Refusal> {
    shape.judge()?;
    shape.judge_symbols(data, shape.data_len())?;
    let (page, count) = (data[0], data[1]);
    if page as usize >= PAGES {
        return Err(Refusal::Page);
    }
    if count as usize > shape.most_marks() {
        return Err(Refusal::Count);
    }
    let (marks, tail) = data[2..].split_at(count as usize);
    if marks.iter().any(|&mark| mark as usize >= FUNCTIONS) {
        return Err(Refusal::Function);
    }
    if tail.iter().any(|&symbol| symbol != 0) {
        return Err(Refusal::Tail);
    }
    Ok(Head { page, marks: marks.len() })
}

pub fn write_page(shape: Shape, page: u32, marks: &[u32], data: &mut [u32]) -> Result<(), Refusal> {
    shape.judge()?;
    if data.len() != shape.data_len() {
        return Err(Refusal::Length);
    }
    if page as usize >= PAGES {
        return Err(Refusal::Page);
    }
    if marks.len() > shape.most_marks() {
        return Err(Refusal::Count);
    }
    if marks.iter().any(|&mark| mark as usize >= FUNCTIONS) {
        return Err(Refusal::Function);
    }
    if !(shape.fits(page) && shape.fits(marks.len() as u32) && shape.all_fit(marks)) {
        return Err(Refusal::Width);
    }
    data.copy_from_slice(&page_symbols(shape, page, marks));
    Ok(())
}

/// Page number, number of marks, the marks, zeros.
pub fn page_symbols(shape: Shape, page: u32, marks: &[u32]) -> Vec<u32> {
    let mut data = vec![page, marks.len() as u32];
    data.extend(marks);
    data.resize(shape.data_len(), 0);
    data
}
