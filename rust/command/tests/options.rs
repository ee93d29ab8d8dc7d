//! What every call has: help, version, values behind `=`, silence on a closed pipe, a word about a full disk.

mod common;

use common::{report, run, Scratch, ROOT};
use std::fs::{self, OpenOptions};
use std::os::fd::OwnedFd;
use std::os::unix::net::UnixStream;
use std::process::{Command, Stdio};

const CALLS: [&str; 4] = ["tally", "report", "diff", "record"];
const TALLY: &str = "outcome page fixed\ntaken 1 0\nfunction calls\n3 1\n";

#[test]
fn help_and_version() {
    let version = format!("shaftglimmer {}\n", env!("CARGO_PKG_VERSION"));
    assert_eq!(run(&["--version"], b"").whole(), version);
    let usage = run(&["--help"], b"").whole();
    assert_eq!(run(&["-h"], b"").whole(), usage);
    for call in CALLS {
        assert!(usage.contains(&format!("\n  {call} ")));
        let help = run(&[call, "--help"], b"").whole();
        assert!(help.starts_with(&format!("usage: shaftglimmer {call} ")), "{help}");
        assert!(help.lines().all(|line| line.chars().count() <= 80));
        assert_eq!(run(&[call, "a", "-h"], b"").whole(), help);
        assert_eq!(run(&[call, "--version"], b"").whole(), version);
    }
}

/// The manual page has every call, and every option of each.
#[test]
fn manual_page() {
    let page = fs::read_to_string(format!("{ROOT}/docs/man/shaftglimmer.1")).expect("the page is there");
    let page = page.replace("\\-", "-");
    for call in CALLS {
        let section = page.split_once(&format!("\n.SH {}\n", call.to_uppercase()));
        let section = section.and_then(|(_, rest)| rest.split("\n.SH ").next()).expect("a section for each call");
        let help = run(&[call, "--help"], b"").whole();
        for option in help.lines().filter_map(|line| line.strip_prefix("  --")?.split([' ', ',']).next()) {
            let common = ["help", "version"].contains(&option);
            assert!(common || section.contains(&format!("--{option}")), "{call} --{option}");
        }
    }
}

#[test]
fn wrong_calls() {
    for (arguments, said) in
        [(&[][..], "no call: "), (&["talli"], "talli: there is no such call"), (&["--x"], "--x: there is no such call")]
    {
        assert!(run(arguments, b"").complaint().starts_with(said));
    }
    for call in CALLS {
        assert_eq!(run(&[call, "--nonsense"], b"").complaint(), "--nonsense: there is no such option");
        assert_eq!(run(&[call, "--help=1"], b"").complaint(), "--help=1: this option takes no value");
    }
}

/// Also a value that has a `=` in it, and one that is empty.
#[test]
fn values_behind_an_equals_sign() {
    let names = Scratch::new(b"3 a=b\n");
    let parted = report(&["--names", names.name(), "--title", "x=y", "--text"], TALLY.as_bytes()).whole();
    let joined = report(&[&format!("--names={}", names.name()), "--title=x=y", "--text"], TALLY.as_bytes()).whole();
    assert_eq!(parted, joined);
    assert!(joined.starts_with("x=y\nTally report of standard input\n") && joined.contains("  a=b\n"));
    assert!(report(&["--names="], TALLY.as_bytes()).complaint().starts_with(": "));
}

/// The title has the file's name and date, or is the one that was asked for.
#[test]
fn titles() {
    let file = Scratch::new(TALLY.as_bytes());
    let page = report(&[file.name()], b"").whole();
    let title = page.split_once("<title>").and_then(|(_, rest)| rest.split_once("</title>")).expect("a title").0;
    let rest = title.strip_prefix(&format!("Tally report: {}, ", file.name())).expect("the file's name");
    let form: String = rest.chars().map(|c| if c.is_ascii_digit() { '0' } else { c }).collect();
    assert_eq!(form, "0000-00-00 00:00 UTC");
    assert!(page.contains(&format!("<h1>Tally report</h1>\n<p class=\"source\">of {}, {rest}</p>", file.name())));
    let page = report(&["--title", "Board 7 & <8>", file.name()], b"").whole();
    assert!(
        page.contains("<title>Board 7 &amp; &lt;8&gt;</title>") && page.contains("<h1>Board 7 &amp; &lt;8&gt;</h1>")
    );
    assert!(report(&[], TALLY.as_bytes()).whole().contains("<title>Tally report: standard input</title>"));
}

/// A call with the sample, or with pages that are as long.
fn command(call: &str) -> Command {
    let sample = format!("{ROOT}/samples/capture.txt");
    let mut command = Command::new(env!("CARGO_BIN_EXE_shaftglimmer"));
    command.arg(call);
    match call {
        "diff" => command.args([&sample, &sample]),
        "record" => command.args(["31", "2", "32"]),
        _ => command.arg(&sample),
    };
    let pages = Scratch::new((0..1000).map(|page| format!("{page} 1 2 3\n")).collect::<String>().as_bytes());
    command.stdin(fs::File::open(&pages.0).expect("the pages")).stderr(Stdio::piped());
    command
}

#[test]
fn a_closed_pipe() {
    for call in CALLS {
        let (written, read) = UnixStream::pair().expect("two ends");
        drop(read);
        let output = command(call).stdout(OwnedFd::from(written)).output().expect("it runs");
        let said = String::from_utf8(output.stderr).expect("text");
        assert_eq!((output.status.code(), said.as_str()), (Some(2), ""), "{call}");
    }
}

#[test]
fn a_full_disk() {
    for call in CALLS {
        let full = OpenOptions::new().write(true).open("/dev/full").expect("this system has /dev/full");
        let output = command(call).stdout(full).output().expect("it runs");
        let said = String::from_utf8(output.stderr).expect("text");
        assert_eq!(output.status.code(), Some(2));
        assert!(said.starts_with("shaftglimmer: standard output: ") && said.lines().count() == 1, "{call}: {said}");
    }
}
