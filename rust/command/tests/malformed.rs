//! What is malformed is said in one line with file and line, and there is no report.

mod common;

use common::{report, Scratch};

const TALLY: &str = "outcome page fixed\ntaken 1 0\nagain 1 1\nrefused 4 0\nfunction calls\n3 1\n5 1\n";

/// Tallies, and the line in which each is malformed.
const WRONG: [(&str, u64); 32] = [
    ("outcome page\n", 1),
    ("outcome page fixed\r\n", 1),
    ("q n b\r\n3 2 8\r\nword\r\n", 1),
    ("\n", 1),
    ("x", 1),
    ("outcome page fixed\n\nfunction calls\n", 2),
    ("outcome page fixed\ntaken 1\n", 2),
    ("outcome page fixed\ntaken 1 0 0\n", 2),
    ("outcome page fixed\ntaken  1 0\n", 2),
    ("outcome page fixed\ntaken 01 0\n", 2),
    ("outcome page fixed\ntaken 1 0 \n", 2),
    ("outcome page fixed\ntaken 1 0\r\n", 2),
    ("outcome page fixed\ntaken -1 0\n", 2),
    ("outcome page fixed\ntaken 1024 0\n", 2),
    ("outcome page fixed\ntaken 1 8\n", 2),
    ("outcome page fixed\ntaken 4294967296 0\n", 2),
    ("outcome page fixed\ntook 1 0\n", 2),
    ("outcome page fixed\ntaken 1 0\ntaken 1 0\n", 3),
    ("outcome page fixed\nagain 1 0\n", 2),
    ("outcome page fixed\nrefused 0 0\n", 2),
    ("outcome page fixed\nrefused 21 0\n", 2),
    ("outcome page fixed\nrefused 4 1\n", 2),
    ("outcome page fixed\noutcome page fixed\n", 2),
    ("outcome page fixed\ntaken 1 x", 2),
    ("outcome page fixed\ntakes", 2),
    ("outcome page fixed\ntaken 1 0 0", 2),
    ("outcome page fixed\nfunction calls\n0 1\n", 3),
    ("outcome page fixed\nfunction calls\n256 1\n", 3),
    ("outcome page fixed\nfunction calls\n3 0\n", 3),
    ("outcome page fixed\nfunction calls\n3 1\n3 1\n", 4),
    ("outcome page fixed\nfunction calls\n3 1\n2 1\n", 4),
    ("outcome page fixed\nfunction calls\n3 4294967296\n", 3),
];

#[test]
fn tallies() {
    for (tally, line) in WRONG {
        for option in [&["-"][..], &["--text"]] {
            let ran = report(option, tally.as_bytes());
            assert!(ran.complaint().starts_with(&format!("standard input: line {line}: ")), "{tally:?}: {}", ran.error);
        }
        let file = Scratch::new(tally.as_bytes());
        let ran = report(&[file.name()], b"");
        assert!(ran.complaint().starts_with(&format!("{}: line {line}: ", file.name())), "{tally:?}: {}", ran.error);
    }
}

#[test]
fn bytes_that_are_no_text() {
    for tally in [&b"outcome page fixed\ntaken 1 \xff\n"[..], b"outcome page fixed\n\x1b[31mtaken 1 0\n"] {
        assert!(report(&[], tally).complaint().starts_with("standard input: line 2: "));
    }
    let long = [b"outcome page fixed\n".to_vec(), vec![b'a'; 1 << 20]].concat();
    assert_eq!(report(&[], &long).complaint(), "standard input: line 2: the line is too long");
}

/// A list is malformed in this line.
fn list(option: &str, contents: &[u8], line: u64) {
    let file = Scratch::new(contents);
    let ran = report(&[option, file.name()], TALLY.as_bytes());
    assert!(ran.complaint().starts_with(&format!("{}: line {line}: ", file.name())), "{contents:?}: {}", ran.error);
}

#[test]
fn names_and_prices() {
    let both: [(&str, u64); 9] = [
        ("\n", 1),
        ("1\n", 1),
        ("x 1\n", 1),
        ("256 1\n", 1),
        ("01 1\n", 1),
        (" 1\n", 1),
        ("1 1\n1 1\n", 2),
        ("1 1\n2 1", 2),
        ("-1 1\n", 1),
    ];
    for (contents, line) in both {
        list("--names", contents.as_bytes(), line);
        list("--prices", contents.as_bytes(), line);
    }
    list("--names", b"1 \n", 1);
    list("--names", &[&b"1 "[..], &[b'n'; 70_000], b"\n"].concat(), 1);
    for price in ["", "x", "-1", "1.5", "01", "4294967296", "1 ", "1\r\r", " 1", "1\t"] {
        list("--prices", format!("1 1\n2 {price}\n").as_bytes(), 2);
    }
}

/// Of a carriage return too many the complaint says so; the lists are read with them.
#[test]
fn carriage_returns() {
    let wrong = report(&[], b"outcome page fixed\ntaken 1 0\r\n");
    assert!(wrong.complaint().ends_with("The line ends with a carriage return"), "{}", wrong.error);
    let names = Scratch::new(b"3 main\r\n5 on tick\r\n");
    let prices = Scratch::new(b"3 1000\r\n5 2000\r\n");
    let text = report(&["--names", names.name(), "--prices", prices.name(), "--text"], TALLY.as_bytes()).whole();
    assert!(text.contains("  main\n") && text.contains("  on tick\n") && text.contains("The bill is 3 pJ."), "{text}");
    list("--names", b"1 \r\n", 1);
}

#[test]
fn lawful_ones() {
    let names = Scratch::new(b"0 idle\n255 last one \n3 \xff\xfe\n");
    let prices = Scratch::new(b"0 4294967295\n3 4294967295\n255 0\n");
    let ran = report(&["--names", names.name(), "--prices", prices.name(), "--text"], TALLY.as_bytes());
    assert!(ran.whole().contains("The bill is 4.295 µJ (4,294,968 pJ)."));
    let empty = Scratch::new(b"");
    report(&["--names", empty.name(), "--prices", empty.name()], TALLY.as_bytes()).whole();
    report(&[], b"outcome page fixed\nfunction calls\n").whole();
}

#[test]
fn arguments() {
    let file = Scratch::new(TALLY.as_bytes());
    let name = file.name();
    let wrong: [(&[&str], &str); 11] = [
        (&["--nmes"], "--nmes: "),
        (&["--"], "--: "),
        (&["-x"], "-x: "),
        (&["--names"], "--names: "),
        (&["--prices"], "--prices: "),
        (&["--title"], "--title: "),
        (&["--names", name, "--names", name], "--names: "),
        (&[name, "b"], "b: "),
        (&["-", name], name),
        (&["--text=1"], "--text=1: "),
        (&["--text", "--json"], "--text: "),
    ];
    for (arguments, beginning) in wrong {
        let ran = report(arguments, TALLY.as_bytes());
        assert!(ran.complaint().starts_with(beginning), "{arguments:?}: {}", ran.error);
    }
    for missing in ["/no/such/file", "", "/no/such\nfile"] {
        for option in [&["--names"][..], &["--prices"], &[]] {
            report(&[option, &[missing]].concat(), TALLY.as_bytes()).complaint();
        }
    }
    report(&["/"], b"").complaint();
}
