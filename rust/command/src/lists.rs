//! The two lists that may come with a tally: names and prices of functions, a line each.

use crate::clean::clean;
use crate::complaint::Complaint;
use crate::lines::number;
use crate::source::Source;
use crate::tally::FUNCTIONS;
use std::ffi::OsStr;

/// By function number.
pub type Names = Vec<Option<String>>;

/// Thousandths of a picojoule for a call, by function number.
pub type Prices = Vec<Option<u32>>;

/// Lines of number, space and name. A name is any bytes but a newline. Without a file there are no names.
pub fn names(file: Option<&OsStr>) -> Result<Names, Complaint> {
    let name = |name: &[u8]| if name.is_empty() { Err("the name is missing") } else { Ok(clean(name)) };
    file.map_or(Ok(vec![None; FUNCTIONS]), |file| list(file, name))
}

/// Lines of number, space and price.
pub fn prices(file: &OsStr) -> Result<Prices, Complaint> {
    list(file, |price| number(price).ok_or("the price is no number from 0 to 4294967295"))
}

/// A carriage return at the end of a line is left out, as some editors write one.
fn list<T: Clone>(file: &OsStr, read: impl Fn(&[u8]) -> Result<T, &'static str>) -> Result<Vec<Option<T>>, Complaint> {
    let mut list = vec![None; FUNCTIONS];
    let mut lines = Source::open(Some(file))?.lines;
    while lines.whole()? {
        let line = lines.line();
        let (function, rest) = entry(line.strip_suffix(b"\r").unwrap_or(line)).map_err(|reason| lines.fault(reason))?;
        let value = read(rest).map_err(|reason| lines.fault(reason))?;
        if list[function].replace(value).is_some() {
            return Err(lines.fault(format!("function {function} stands here a second time")));
        }
    }
    Ok(list)
}

/// The function's number, and what stands behind the space.
fn entry(line: &[u8]) -> Result<(usize, &[u8]), &'static str> {
    let space = line.iter().position(|&byte| byte == b' ').ok_or("there is no space behind the function's number")?;
    let function = number(&line[..space]).map(|function| function as usize);
    match function.filter(|&function| function < FUNCTIONS) {
        Some(function) => Ok((function, &line[space + 1..])),
        None => Err("the line does not begin with a function's number, 0 to 255"),
    }
}
