//! What the page and the text say alike.

use crate::answers::Refused;
use crate::bill::Bill;
use crate::capture::Fault;
use crate::figures::share;
use crate::ranges::ranges;
use crate::ranking::half;
use crate::report::{several, Form, Report};
use crate::tally::Lack;
use shaftglimmer::Refusal;

/// What becomes of a refused word.
pub const REFUSED: &str =
    "A refused word counts nothing and harms nothing. Its page is counted once it comes again and is not refused.";

/// What has to be known before anything else: why the input is no tally, or that every word was refused.
pub fn alarms(report: &Report) -> Vec<String> {
    report.tally.calls.as_ref().err().map_or_else(|| all_refused(report), lacking)
}

/// Why the input is no tally, and what to do.
pub fn lacking(lack: &Lack) -> Vec<String> {
    match lack {
        Lack::Fault(fault) => at_fault(fault),
        Lack::Counts { cut } => {
            let missing = "This is no tally: the line 'function calls' is missing. So no calls are known.";
            let reason = "A read or a write failed before the counts were printed. The reason was on standard error.";
            let mut said = vec![missing.to_string(), reason.to_string()];
            said.extend(cut.then(|| "The last line is cut, and left out here.".to_string()));
            said
        }
        Lack::LastLine => {
            vec!["This is no tally: the last line is cut. So counts are missing, and none are shown.".to_string()]
        }
    }
}

fn all_refused(report: &Report) -> Vec<String> {
    let answers = &report.tally.answers;
    let malformed = answers.refused[Refusal::Syntax.number() as usize].words;
    match answers.words() {
        0 => vec![],
        words if malformed == words => {
            vec!["Every word line is malformed: look for carriage returns or spaces at their ends first.".to_string()]
        }
        words if answers.refusals() == words => {
            vec!["Every word was refused: look at the shape first, in line 2 of the capture.".to_string()]
        }
        _ => vec![],
    }
}

/// What is said of a fault in the first three lines.
fn at_fault(fault: &Fault) -> Vec<String> {
    let place = fault.line.map_or("one of the first three lines".to_string(), |line| format!("line {line}"));
    let number = fault.refusal.number();
    let mut said = vec![
        format!("This is no tally: {place} of the capture is at fault ({number} {}).", fault.refusal.name()),
        "So there are no words, and there is nothing to count.".to_string(),
    ];
    match fault.line {
        Some(line) => said.push(format!("Line {line}: {}.", fault.expected())),
        None => said.push(format!("{} {}", quoted(fault.refusal.meaning()), fault.refusal.advice())),
    }
    said.extend(fault.ends.iter().map(|end| format!("The line {end}.")));
    said
}

/// The most called function, and how many have half of the calls.
pub fn most_called(report: &Report, form: Form) -> String {
    let ranked = report.ranked();
    let Some(first) = ranked.first() else { return "No function was called.".to_string() };
    let name = report.name(first.function).map_or(String::new(), |name| format!(" ({})", form.name(name)));
    let (calls, all) = (form.number(first.calls), report.calls());
    let of = format!("{calls} of {}, {}", several(form, all, "call", "calls"), share(first.calls.into(), all.into()));
    let most = format!("Function {}{name} was called most: {of}.", first.function);
    match half(&ranked) {
        1 => most,
        several => format!("{most} The first {several} functions have half of all calls."),
    }
}

pub fn covered(report: &Report) -> String {
    format!("{} of 255 functions were called.", report.ranked().len())
}

/// The functions that were not called.
pub fn uncalled(report: &Report, form: Form) -> String {
    let calls = report.tally.counts();
    form.ranges(&ranges((1..256).filter(|&function| calls[function as usize] == 0)))
}

pub fn pages(report: &Report, form: Form) -> String {
    let answers = &report.tally.answers;
    let Some(highest) = answers.highest() else { return "No page came.".to_string() };
    let missing = match highest as u64 + 1 - answers.taken {
        0 => "no page up to it is missing".to_string(),
        1 => "1 page up to it is missing".to_string(),
        several => format!("{} pages up to it are missing", form.number(several)),
    };
    let came = several(form, answers.taken, "page came", "pages came");
    format!("{came}. The highest is {highest}, and {missing}.")
}

pub fn restored(report: &Report, form: Form) -> String {
    let answers = &report.tally.answers;
    let read = several(form, answers.taken + answers.again, "word", "words");
    let damaged = form.number(answers.damaged());
    if answers.taken + answers.again == 0 {
        return "No word was read.".to_string();
    }
    match answers.symbols() {
        0 => format!("No symbol had to be restored in {read} read."),
        symbols => {
            format!("{} restored, in {damaged} of {read} read.", several(form, symbols, "symbol was", "symbols were"))
        }
    }
}

/// The bill, that it is rounded once, and which functions have no price.
pub fn bill(bill: &Bill, form: Form) -> Vec<String> {
    let mut said = match bill.picojoules {
        Ok(picojoules) => vec![
            billed(picojoules, form),
            format!("The parts come to {} thousandths of a picojoule.", form.number(bill.thousandths())),
            "The bill is rounded up to whole picojoules once, at the end.".to_string(),
        ],
        Err(refusal) => vec![format!("There is no bill: it is {}. {}", named(refusal), refusal.advice())],
    };
    let unpriced = bill.unpriced();
    if !unpriced.is_empty() {
        let functions = several(form, unpriced.len() as u64, "function has", "functions have");
        let listed = form.ranges(&ranges(unpriced));
        said.push(format!("{functions} calls and no price, which adds nothing: {listed}."));
    }
    said
}

/// In a unit that is easy to read, and exactly.
fn billed(picojoules: u64, form: Form) -> String {
    let exact = form.number(picojoules);
    match form.energy(picojoules) {
        (_, "pJ") => format!("The bill is {exact} pJ."),
        (easy, unit) => format!("The bill is {easy} {unit} ({exact} pJ)."),
    }
}

fn named(refusal: Refusal) -> String {
    format!("refused with {}, {}", refusal.number(), refusal.name())
}

/// Where in the capture the words stand that were refused with a number.
pub fn lines(refused: &Refused, form: Form) -> String {
    match refused.more {
        0 => form.ranges(&refused.lines),
        more => format!("{} and {} more", form.ranges(&refused.lines), form.number(more)),
    }
}

/// Text of the documents, whose marks for code are no part of a report.
pub fn quoted(text: &str) -> String {
    text.replace('`', "'")
}
