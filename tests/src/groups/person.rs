//! The linked program in a person's hands: its arguments, and what it says on standard error.

use super::faults::{first_lines, second_lines, third_lines, SHAPE};
use super::text::compare;
use crate::capture::{heading, recording, text, word_lines};
use crate::process::{Program, TemporaryFile, Written};
use crate::random::Random;
use crate::reference::page::PAGES;
use crate::reference::program::{fault, tally, MAX_LINE};
use crate::reference::shape::Shape;
use crate::report::{Group, Unit, Verdict};
use std::env;
use std::ffi::{c_int, OsStr};
use std::fs::{self, File};
use std::io;
use std::os::unix::process::CommandExt;
use std::process::Stdio;
use std::time::{Duration, Instant};

extern "C" {
    fn close(file: c_int) -> c_int;
    fn geteuid() -> c_int;
}

/// A capture of one page.
const CAPTURE: &str = "q n b\n3 2 8\nword\n5 2 7 3 1 2 6 3 5\n";

/// The first three lines.
const HEAD: [&str; 3] = ["q n b\n", "3 2 8\n", "word\n"];

/// The summary of no answers.
const NO_WORDS: &str = "0 taken, 0 again, 0 refused\n";

/// A line of the terminal emptied.
const CLEAR: &str = "\r\x1b[K";

pub fn group(program: &Program) -> Group {
    let mut group = Group::new("program, arguments and terminals", Unit::Captures);
    let mut test = |name: &str, body: fn(&Program, &mut Random) -> Verdict| group.test_program(name, program, body);
    test("a file gives what standard input gives", files);
    test("a dash is standard input", dash);
    test("help", |program, _| help(program));
    test("version", |program, _| version(program));
    test("more than one argument", |program, _| several(program));
    test("options that there are not", |program, _| options(program));
    test("files that can't be opened", |program, _| unopened(program));
    test("files that can't be read", |program, _| unread(program));
    test("a file of somebody else", |program, _| forbidden(program));
    test("names with odd letters", |program, _| odd_names(program));
    test("progress and summary", progress);
    test("a summary alone", summary);
    test("a fault in the first three lines", |program, _| first_three(program));
    test("no terminal, no word", silence);
    test("nothing to say after a fault", |program, _| faults(program));
    group
}

/// No output, and one line of complaint that names the argument and the reason.
fn expect_refusal(written: &Written, name: &str, reason: &str) -> Result<(), String> {
    let said = String::from_utf8_lossy(&written.error);
    let wanted = format!("tally: {name}: {reason}");
    if !written.output.is_empty() {
        Err(format!("{name:?}: there is output, {:?}", String::from_utf8_lossy(&written.output)))
    } else if !said.starts_with(&wanted) || !said.ends_with('\n') || said.matches('\n').count() != 1 {
        Err(format!("{name:?}: it says {said:?}, expected one line that begins {wanted:?}"))
    } else {
        Ok(())
    }
}

/// The same of a run with this argument.
fn expect_refused(program: &Program, name: &str, reason: &str) -> Result<(), String> {
    expect_refusal(&program.run_arguments(&[OsStr::new(name)], CAPTURE.as_bytes())?, name, reason)
}

fn expect_output(input: &[u8], written: &Written) -> Result<(), String> {
    compare(&tally(input), Ok(written.output.clone())).map_or(Ok(()), Err)
}

/// What is said is this.
fn expect_said(input: &[u8], said: &str, wanted: &str) -> Result<(), String> {
    if said == wanted {
        return Ok(());
    }
    let beginning = String::from_utf8_lossy(&input[..input.len().min(40)]);
    Err(format!("{beginning:?}: it says {said:?}, expected {wanted:?}"))
}

/// The output, and standard error where that is no terminal: a fault in the first three lines, or nothing.
fn expect_tally(input: &[u8], written: &Written) -> Result<(), String> {
    expect_output(input, written)?;
    expect_said(input, &String::from_utf8_lossy(&written.error), &fault_text(input))
}

/// Captures of several kinds, whole and not.
fn captures(random: &mut Random) -> Vec<Vec<u8>> {
    let mut inputs = vec![vec![], b"q n b\n".to_vec(), CAPTURE.as_bytes().to_vec()];
    inputs.extend(first_lines().into_iter().take(3).map(|(input, _)| input.into_bytes()));
    inputs.extend(second_lines().into_iter().take(3).map(|(input, _)| input.into_bytes()));
    for shape in [SHAPE, Shape::new(17, 4, 32), Shape::new(31, 8, 32)] {
        let input = text(shape, &recording(shape, 40, random), random).into_bytes();
        inputs.push(input[..input.len() - 1].to_vec());
        inputs.push(input);
    }
    inputs
}

fn files(program: &Program, random: &mut Random) -> Verdict {
    let inputs = captures(random);
    for input in &inputs {
        let file = TemporaryFile::new(input)?;
        // What waits at standard input is not read.
        expect_tally(input, &program.run_arguments(&[file.path().as_os_str()], b"no capture\n")?)?;
    }
    Ok(inputs.len() as u64)
}

fn dash(program: &Program, random: &mut Random) -> Verdict {
    let inputs = captures(random);
    for input in &inputs {
        expect_tally(input, &program.run_arguments(&[OsStr::new("-")], input)?)?;
        expect_tally(input, &program.run_arguments(&[], input)?)?;
    }
    Ok(2 * inputs.len() as u64)
}

/// The usage has all answers and all refusals that the program can give.
fn help(program: &Program) -> Verdict {
    let long = program.run_arguments(&[OsStr::new("--help")], CAPTURE.as_bytes())?;
    let short = program.run_arguments(&[OsStr::new("-h")], b"")?;
    let usage = String::from_utf8(long.output).map_err(|error| error.to_string())?;
    let refusals = "1 shape, 2 length, 3 width, 4 damage, 5 page, 6 count, 7 function, 8 tail, 10 text";
    for part in ["usage: tally [FILE]\n", "taken", "again", "refused", refusals] {
        if !usage.contains(part) {
            return Err(format!("the usage lacks {part:?}: {usage:?}"));
        }
    }
    if short.output != usage.as_bytes() || !long.error.is_empty() || !short.error.is_empty() {
        return Err("the two ways to ask for help differ, or complain".into());
    }
    Ok(2)
}

/// Name and version, the one that pkg-config, the header, the crate and the package for Python have.
fn version(program: &Program) -> Verdict {
    let written = program.run_arguments(&[OsStr::new("--version")], CAPTURE.as_bytes())?;
    let said = String::from_utf8_lossy(&written.output).into_owned();
    let number = said.strip_prefix("tally ").and_then(|rest| rest.strip_suffix('\n')).unwrap_or_default().to_string();
    let files = [
        (include_str!("../../../include/shaftglimmer.pc.in"), format!("\nVersion: {number}\n")),
        (include_str!("../../../include/shaftglimmer.h"), format!("\n#define SHAFTGLIMMER_VERSION \"{number}\"\n")),
        (include_str!("../../../rust/Cargo.toml"), format!("\nversion = \"{number}\"\n")),
        (include_str!("../../../python/pyproject.toml"), format!("\nversion = \"{number}\"\n")),
        (include_str!("../../../python/shaftglimmer/__init__.py"), format!("\n__version__ = \"{number}\"\n")),
    ];
    if let Some((_, line)) = files.iter().find(|(file, line)| !file.contains(line)) {
        return Err(format!("it says {said:?}, and a file lacks {line:?}"));
    }
    if !written.error.is_empty() {
        return Err("the version is said with a complaint".into());
    }
    Ok(1)
}

fn several(program: &Program) -> Verdict {
    let lists: [&[&str]; 6] =
        [&["a", "b"], &["-", "-"], &["--help", "b"], &["a", "--help"], &["-x", "b", "c"], &["", "--", "c", "d"]];
    for list in lists {
        let arguments: Vec<&OsStr> = list.iter().map(OsStr::new).collect();
        let written = program.run_arguments(&arguments, CAPTURE.as_bytes())?;
        expect_refusal(&written, list[1], "one argument too many")?;
    }
    Ok(lists.len() as u64)
}

fn options(program: &Program) -> Verdict {
    let options =
        ["-x", "--", "---", "-help", "--hel", "--helpp", "-H", "-h ", "--help=1", "-version", "--Version", "-V", "-1"];
    for option in options {
        expect_refused(program, option, "no such option")?;
    }
    Ok(options.len() as u64)
}

fn unopened(program: &Program) -> Verdict {
    let missing = env::temp_dir().join("shaftglimmer-no-such-file").to_string_lossy().into_owned();
    let file = TemporaryFile::new(b"")?;
    let below = file.path().join("capture.txt").to_string_lossy().into_owned();
    let (component, full) = ("x".repeat(300), "./".repeat(2_047) + "x");
    let cases = [
        ("", "No such file or directory"),
        (&missing, "No such file or directory"),
        (&below, "Not a directory"),
        (&component, "File name too long"),
        (&full, "No such file or directory"),
        (&"y".repeat(4_095), "File name too long"),
        (&"y".repeat(4_096), "File name too long"),
    ];
    for (name, reason) in cases {
        expect_refused(program, name, reason)?;
    }
    // Longer than any name: its beginning is named.
    let written = program.run_arguments(&[OsStr::new(&"y".repeat(4_097))], CAPTURE.as_bytes())?;
    expect_refusal(&written, &"y".repeat(4_096), "File name too long")?;
    Ok(cases.len() as u64 + 1)
}

/// A directory opens and can't be read; so does the memory of a process, from its start. The same at standard input.
fn unread(program: &Program) -> Verdict {
    let folder = env::temp_dir().to_string_lossy().into_owned();
    for (name, reason) in [(folder.as_str(), "Is a directory"), ("/proc/self/mem", "Input/output error")] {
        expect_refused(program, name, reason)?;
        let file = File::open(name).map_err(|error| format!("{name}: {error}"))?;
        let written = program.run_command(&[], b"", |command| {
            command.stdin(file);
        })?;
        expect_refusal(&written, "standard input", reason)?;
    }
    Ok(4)
}

/// Where the tests run as root, who may read everything, the program runs as nobody.
fn forbidden(program: &Program) -> Verdict {
    let file = TemporaryFile::new(CAPTURE.as_bytes())?;
    file.set_mode(0)?;
    let name = file.path().to_string_lossy().into_owned();
    // SAFETY: it takes nothing and always answers.
    let root = unsafe { geteuid() } == 0;
    let (_copy, program) = program.copied()?;
    let written = program.run_command(&[file.path().as_os_str()], b"", |command| {
        if root {
            command.uid(65_534);
        }
    })?;
    expect_refusal(&written, &name, "Permission denied")?;
    Ok(1)
}

/// A file whose name begins with a dash, or has spaces, is read all the same. One whose name is no text can't be opened,
/// and is read as standard input.
fn odd_names(program: &Program) -> Verdict {
    let folder = env::temp_dir().join(format!("shaftglimmer-names-{}", std::process::id()));
    fs::create_dir_all(&folder).map_err(|error| error.to_string())?;
    let names: [&[u8]; 5] = [b"./-x", b"./--help", b"a capture", b"line\nbreak", b"\xff\xfe"];
    let result = names.iter().try_for_each(|bytes| {
        let name: &OsStr = std::os::unix::ffi::OsStrExt::from_bytes(bytes);
        let file = folder.join(name);
        fs::write(&file, CAPTURE).map_err(|error| format!("{name:?}: {error}"))?;
        let written = program.run_command(&[name], b"", |command| {
            command.current_dir(&folder);
        })?;
        if std::str::from_utf8(bytes).is_ok() {
            return expect_tally(CAPTURE.as_bytes(), &written);
        }
        let said = String::from_utf8_lossy(bytes);
        expect_refusal(&written, &said, "Invalid or incomplete multibyte or wide character")?;
        let file = File::open(&file).map_err(|error| format!("{name:?}: {error}"))?;
        let written = program.run_command(&[], b"", |command| {
            command.stdin(file);
        })?;
        expect_tally(CAPTURE.as_bytes(), &written)
    });
    // Nothing is lost if it stays behind.
    let _ = fs::remove_dir_all(&folder);
    result.map(|()| names.len() as u64)
}

/// The line at the end, from the output's own lines.
fn summary_of(output: &[u8]) -> String {
    let output = String::from_utf8_lossy(output);
    let count = |kind: &str| output.lines().filter(|line| line.starts_with(kind)).count();
    format!("{} taken, {} again, {} refused\n", count("taken"), count("again"), count("refused"))
}

/// What was expected in a line, which was answered with this refusal.
fn expected_there(line: usize, refusal: u32) -> &'static str {
    match (line, refusal) {
        (1, _) => "tally: line 1: expected 'q n b'\n",
        (2, 1) => {
            "tally: line 2: expected q one of 3, 5, 7, 11, 13, 17, 19, 23, 29, 31, \
             n from 2 to the smaller of q and 8, b from 1 to 32\n"
        }
        (2, _) => "tally: line 2: expected the three values of q, n and b\n",
        _ => "tally: line 3: expected 'word'\n",
    }
}

/// What is said of a fault in the first three lines: which line, what was expected there, and what stands at the ends
/// of a line that has its newline and is not too long.
fn fault_text(input: &[u8]) -> String {
    let Some((number, refusal)) = fault(input) else { return String::new() };
    let mut text = expected_there(number, refusal as u32).to_string();
    let line = input.split_inclusive(|&byte| byte == b'\n').nth(number - 1).filter(|line| line.len() <= MAX_LINE);
    if let Some(line) = line.and_then(|line| line.strip_suffix(b"\n")) {
        if line.starts_with("\u{feff}".as_bytes()) {
            text += &format!("tally: line {number} begins with a byte order mark\n");
        }
        if line.ends_with(b"\r") {
            text += &format!("tally: line {number} ends with a carriage return\n");
        }
    }
    text
}

/// What stands there at the end. The refused line of a fault is the answer to no word.
fn ending_of(input: &[u8], output: &[u8]) -> String {
    match fault(input) {
        None => summary_of(output),
        Some(_) => fault_text(input) + NO_WORDS,
    }
}

/// What a terminal got: the progress lines, all cleared, and what is left at the end.
fn shown(error: &[u8]) -> Result<(Vec<String>, String), String> {
    let text = String::from_utf8_lossy(error).into_owned();
    let mut parts: Vec<String> = text.split(CLEAR).map(str::to_string).collect();
    let last = parts.pop().unwrap_or_default();
    if parts.is_empty() {
        return Ok((parts, last));
    }
    if !parts.remove(0).is_empty() || parts.iter().any(|part| part.is_empty() || part.contains(['\n', '\r'])) {
        return Err(format!("progress lines are not cleared as they should be: {text:?}"));
    }
    Ok((parts, last))
}

/// The progress lines of a run with this input. Output and summary must be right.
fn progress_of(input: &[u8], written: &Written) -> Result<Vec<String>, String> {
    expect_output(input, written)?;
    let (lines, last) = shown(&written.error)?;
    expect_said(input, &last, &ending_of(input, &written.output))?;
    Ok(lines)
}

/// After each line of a capture: the bytes so far, the pages taken and the lowest that is missing.
fn states(input: &[u8]) -> Vec<(usize, usize, usize)> {
    let output = tally(input);
    let mut answers = output.split(|&byte| byte == b'\n').skip(1);
    let mut came = vec![false; PAGES];
    let mut bytes = 0;
    let mut states = vec![(0, 0, 0)];
    for (number, line) in input.split_inclusive(|&byte| byte == b'\n').enumerate() {
        bytes += line.len();
        if number >= 3 {
            let answer = String::from_utf8_lossy(answers.next().unwrap_or_default()).into_owned();
            if let ["taken", page, _] = answer.split(' ').collect::<Vec<_>>()[..] {
                came[page.parse::<usize>().expect("a page number")] = true;
            }
        }
        let lowest = came.iter().position(|&here| !here).unwrap_or(PAGES);
        states.push((bytes, came.iter().filter(|&&here| here).count(), lowest));
    }
    states
}

/// Whether a progress line is right at some moment of the run.
fn is_right(line: &str, states: &[(usize, usize, usize)]) -> bool {
    let fits = |at: usize, megabytes: usize| {
        let (bytes, pages, lowest) = states[at];
        let next = states.get(at + 1).map_or(bytes, |next| next.0);
        let missing = if lowest < PAGES { format!("lowest missing {lowest}") } else { "no page missing".into() };
        (bytes / 1_000_000..=next / 1_000_000).contains(&megabytes)
            && line == format!("{megabytes} MB read, {pages} pages taken, {missing}")
    };
    let megabytes = line.split(' ').next().and_then(|number| number.parse().ok());
    megabytes.is_some_and(|megabytes| (0..states.len()).any(|at| fits(at, megabytes)))
}

/// Standard error a terminal, standard output a pipe: a capture of some seconds.
fn progress(program: &Program, random: &mut Random) -> Verdict {
    let shape = Shape::new(17, 4, 32);
    let mut pages = recording(shape, 1024, random);
    pages.sort_by_key(|page| page.number);
    let mut lines = word_lines(shape, &pages[..600], random);
    // The first pages first, so that the lowest that is missing moves on.
    lines.splice(0..0, pages.iter().map(|page| crate::capture::line(&page.codeword(shape))));
    let input = (heading(shape) + &lines.concat()).into_bytes();
    let start = Instant::now();
    let pieces = input.chunks(input.len().div_ceil(30));
    let written = program.run_watched(pieces, Duration::from_millis(100), false, true)?;
    let seconds = start.elapsed().as_secs() as usize + 1;
    let lines = progress_of(&input, &written)?;
    if lines.len() < 2 || lines.len() > 4 * seconds {
        return Err(format!("{} progress lines in {seconds} seconds", lines.len()));
    }
    let states = states(&input);
    if let Some(line) = lines.iter().find(|line| !is_right(line, &states)) {
        return Err(format!("a progress line that is right at no time: {line:?}"));
    }
    Ok(1)
}

/// Both outputs terminals, or standard error alone in a run too short for progress.
fn summary(program: &Program, random: &mut Random) -> Verdict {
    let inputs = captures(random);
    for input in &inputs {
        for terminal in [true, false] {
            let pieces = input.chunks(input.len().div_ceil(3).max(1));
            let written = program.run_watched(pieces, Duration::ZERO, terminal, true)?;
            let lines = progress_of(input, &written)?;
            if terminal && !lines.is_empty() {
                return Err(format!("progress where both are terminals: {lines:?}"));
            }
        }
    }
    let input = text(SHAPE, &recording(SHAPE, 200, random), random).into_bytes();
    let pieces = input.chunks(input.len().div_ceil(25));
    let written = program.run_watched(pieces, Duration::from_millis(100), true, true)?;
    if shown(&written.error)? != (vec![], summary_of(&written.output)) {
        return Err(format!("both terminals: {:?}", String::from_utf8_lossy(&written.error)));
    }
    Ok(2 * inputs.len() as u64 + 1)
}

/// A fault in each of the first three lines, of every kind, or the input's end before them: which line, what was expected
/// there, and a byte order mark or a carriage return at its ends are said, to a script too. No word is counted.
fn first_three(program: &Program) -> Verdict {
    let mut tried = 0;
    for (line, inputs) in (1..).zip([first_lines(), second_lines(), third_lines()]) {
        let ends = [
            format!("\u{feff}{}\r", HEAD[line - 1].trim_end()),
            format!("\u{feff}{}", HEAD[line - 1].trim_end()),
            "\u{feff}\r".into(),
        ];
        let ends = ends.map(|end| (HEAD[..line - 1].concat() + &end + "\nword\n", 10));
        for (input, refusal) in inputs.into_iter().chain(ends) {
            let input = input.as_bytes();
            if fault(input).map(|(number, by)| (number, by as u32)) != Some((line, refusal)) {
                return Err(format!("{:?}: another fault is expected", String::from_utf8_lossy(input)));
            }
            let written = program.run_watched([input].into_iter(), Duration::ZERO, false, true)?;
            let (_, said) = shown(&written.error)?;
            expect_said(input, &said, &(fault_text(input) + NO_WORDS))?;
            expect_output(input, &written)?;
            expect_tally(input, &program.run_arguments(&[], input)?)?;
            tried += 2;
        }
    }
    Ok(tried)
}

/// Standard error no terminal, in a run long enough for progress.
fn silence(program: &Program, random: &mut Random) -> Verdict {
    let input = text(SHAPE, &recording(SHAPE, 200, random), random).into_bytes();
    for output in [false, true] {
        let pieces = input.chunks(input.len().div_ceil(15));
        let written = program.run_watched(pieces, Duration::from_millis(100), output, false)?;
        expect_tally(&input, &written)?;
    }
    Ok(2)
}

/// After a complaint there is no summary. A full disk and a closed standard output get one, of the usage too.
fn faults(program: &Program) -> Verdict {
    for arguments in [&[][..], &[OsStr::new("--help")]] {
        let full = File::options().write(true).open("/dev/full").map_err(|error| format!("/dev/full: {error}"))?;
        let written = program.run_command(arguments, CAPTURE.as_bytes(), |command| {
            command.stdout(Stdio::from(full));
        })?;
        expect_refusal(&written, "standard output", "No space left on device")?;
        let written = program.run_command(arguments, CAPTURE.as_bytes(), |command| {
            // SAFETY: close may be called between fork and exec.
            unsafe { command.pre_exec(|| if close(1) == 0 { Ok(()) } else { Err(io::Error::last_os_error()) }) };
        })?;
        expect_refusal(&written, "standard output", "Bad file descriptor")?;
    }
    let folder = env::temp_dir();
    let terminal = crate::terminal::Terminal::open()?;
    let side = terminal.program_side()?;
    let written = program.run_command(&[folder.as_os_str()], b"", |command| {
        command.stderr(side);
    })?;
    let error = terminal.read_all()?;
    expect_refusal(&Written { output: written.output, error }, &folder.to_string_lossy(), "Is a directory")?;
    Ok(5)
}
