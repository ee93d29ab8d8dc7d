//! `shaftglimmer record`: a capture from pages as text.

use super::{number, write, Call};
use crate::arguments::{shown, Arguments};
use crate::capture;
use crate::complaint::Complaint;
use crate::damage::{Damage, KINDS};
use crate::lines::values;
use crate::source::Source;
use shaftglimmer::{encode, write_page, Refusal, Shape};
use std::ffi::OsString;

pub const CALL: Call = Call { name: "record", usage: USAGE, options: &[("--damage", 2)], run };

const USAGE: &str = "\
usage: shaftglimmer record [--damage KIND SEED] Q N B < PAGES

Writes a capture of shape (Q, N, B) with the pages that standard input has. A
line there is a page: its number, 0 to 1023, and its marks, function numbers 0
to 255, with one space before each.

  --damage KIND SEED  damages every word; the same seed does the same damage:
                      clean, vote, two, nearest  what this way of reading undoes
                      hidden  two symbols of a row changed alike: the clean way
                              refuses it, the nearest codeword undoes it
  --help, -h          this text
  --version           the version

The exit status is 0 if there is a capture, and 2 if not.
";

fn run(arguments: &Arguments) -> Result<u8, Complaint> {
    let shape = shape(&arguments.plain)?;
    let mut damage = arguments.values("--damage").map(|values| damage(values, &shape)).transpose()?;
    let mut lines = Source::open(None)?.lines;
    let names = String::from_utf8_lossy(capture::FIRST_NAMES);
    let mut capture = format!("{names}\n{} {} {}\nword\n", shape.q(), shape.n(), shape.b());
    while lines.whole()? {
        let mut word = word(&shape, lines.line()).map_err(|refusal| lines.fault(refusal))?;
        if let Some(damage) = &mut damage {
            damage.add(&shape, &mut word);
        }
        let word: Vec<String> = word.iter().map(u32::to_string).collect();
        capture += &(word.join(" ") + "\n");
    }
    write(&capture)
}

fn shape(numbers: &[OsString]) -> Result<Shape, Complaint> {
    let [q, n, b] = numbers else {
        return Err(Complaint::of("record", "the shape is missing, or more than it is given: Q N B"));
    };
    let shape = Shape::new(number(q, "Q")?, number(n, "N")?, number(b, "B")?);
    shape.map_err(|refusal| Complaint::of("Q N B", refusal))
}

fn damage(values: &[OsString], shape: &Shape) -> Result<Damage, Complaint> {
    let [kind, seed] = values else { return Err(Complaint::of("--damage", "a value is missing")) };
    let named = shown(kind);
    let Some((_, kind)) = KINDS.into_iter().find(|(name, _)| *name == named) else {
        let kinds = KINDS.map(|(name, _)| name).join(", ");
        return Err(Complaint::of(&format!("--damage {named}"), format!("there is no such kind, but {kinds}")));
    };
    Damage::new(kind, number(seed, "SEED")?, shape).map_err(|refusal| Complaint::of("--damage", refusal))
}

/// The word with a page, given as its number and its marks.
fn word(shape: &Shape, line: &[u8]) -> Result<Vec<u32>, Refusal> {
    let page = values(line).ok_or(Refusal::Syntax)?;
    let (number, marks) = page.split_first().ok_or(Refusal::Syntax)?;
    let marks: Option<Vec<u8>> = marks.iter().map(|&mark| mark.try_into().ok()).collect();
    encode(shape, &write_page(shape, *number, marks.ok_or(Refusal::Function)?)?)
}
