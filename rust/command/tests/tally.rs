//! `shaftglimmer tally` writes what the proved program writes, and has an exit status.

mod common;

use common::{proved, run, Random, Scratch, ROOT};
use std::fs::{self, OpenOptions};
use std::io::{Seek, SeekFrom, Write};

const HEAD: &str = "q n b\n3 2 8\nword\n";
/// Page 1 with marks 3 and 5; once more, damaged; damage that can't be undone.
const WORDS: [&str; 3] = ["5 2 7 3 1 2 6 3 5\n", "12 2 7 3 1 2 6 3 5\n", "1 0 0 0 1 0 0 0 0\n"];

/// The proved program's output, and the status that belongs to it.
fn same(input: &[u8]) {
    let shown = String::from_utf8_lossy(&input[..input.len().min(80)]).into_owned();
    let expected = proved(&[], input).output;
    let status = match (expected.contains("function calls\n"), expected.contains("refused ")) {
        (true, false) => 0,
        (true, true) => 1,
        (false, _) => 2,
    };
    let file = Scratch::new(input);
    for (arguments, input) in
        [(&[][..], input), (&["-"], input), (&[file.name()], b"no capture\n"), (&["--way", "clean"], input)]
    {
        let ran = run(&[&["tally"], arguments].concat(), input);
        assert_eq!((ran.output.as_str(), ran.status), (expected.as_str(), Some(status)), "{shown:?}");
        assert_eq!(ran.error.is_empty(), status < 2, "{shown:?}: {}", ran.error);
    }
}

#[test]
fn samples() {
    for name in ["capture", "small"] {
        let capture = fs::read(format!("{ROOT}/samples/{name}.txt")).expect("the sample is there");
        let tally = fs::read_to_string(format!("{ROOT}/samples/{name}.tally")).expect("its tally is there");
        assert_eq!(run(&["tally"], &capture).output, tally);
        same(&capture);
        for cut in [1, 2, 5, 100, capture.len() / 2, capture.len() - 3] {
            same(&capture[..capture.len() - cut]);
        }
        let returns = String::from_utf8(capture).expect("text").replace('\n', "\r\n");
        same(returns.as_bytes());
        same(returns.replacen("\r\n", "\n", 3).as_bytes());
    }
}

#[test]
fn statuses() {
    for (words, status) in [(0, 0), (1, 0), (2, 0), (3, 1)] {
        let input = HEAD.to_string() + &WORDS[..words].concat();
        assert_eq!(run(&["tally"], input.as_bytes()).status, Some(status));
        same(input.as_bytes());
    }
}

/// Every fault in a line, alone and with what may follow it.
#[test]
fn faults_in_the_first_lines() {
    let faults: [(&[&str], &str); 3] = [
        (
            &["", "\n", "q n b", "q n b\r\n", "\u{feff}q n b\n", "q  n b\n", "q n b \n", "Q N B\n", "word\n"],
            "line 1: expected 'q n b'",
        ),
        (
            &[
                "", "\n", "3 2 8", "3 2\n", "3 2 8 1\n", "3 2 8\r\n", "03 2 8\n", "3 2 x\n", "3  2 8\n",
                "\u{feff}3 2 8\n", "3 2 4294967296\n",
            ],
            "line 2: expected the three values of q, n and b",
        ),
        (&["", "\n", "word", "words\n", "word\r\n", " word\n", "\u{feff}word\n", "5 2 7\n"], "line 3: expected 'word'"),
    ];
    for (place, (lines, said)) in faults.into_iter().enumerate() {
        let before = HEAD.split_inclusive('\n').take(place).collect::<String>();
        for line in lines {
            for after in ["", "\n", "q n b\n3 2 8\nword\n5 2 7 3 1 2 6 3 5\n"] {
                // A line without a newline is the last one.
                let after = if line.ends_with('\n') { after } else { "" };
                fault(&format!("{before}{line}{after}"), said, line);
            }
        }
        same(format!("{before}{}\n", "1".repeat(16_384)).as_bytes());
    }
    for shape in ["9 2 8", "3 4 8", "31 9 8", "3 2 0", "3 2 33", "4294967295 0 0"] {
        fault(&format!("q n b\n{shape}\nwords\n"), "line 2: expected q one of 3, 5, ", shape);
    }
}

/// What the proved program writes, and what it says.
fn fault(input: &str, said: &str, line: &str) {
    same(input.as_bytes());
    let (own, other) = (run(&["tally"], input.as_bytes()), proved(&[], input.as_bytes()));
    assert!(own.error.starts_with(&format!("shaftglimmer: standard input: {said}")), "{input:?}: {}", own.error);
    assert_eq!(own.error.replace("shaftglimmer: standard input: ", "tally: "), other.error, "{input:?}");
    let whole = line.ends_with('\n');
    let noted = whole && (line.starts_with('\u{feff}') || line.ends_with("\r\n"));
    assert_eq!(own.error.lines().count(), if noted { 2 } else { 1 }, "{input:?}: {}", own.error);
}

#[test]
fn word_lines() {
    let long = |bytes: usize| "1".repeat(bytes - 1) + "\n";
    let many = |values: usize| vec!["1"; values].join(" ") + "\n";
    let lines = [
        "\n", "5 2 7\n", "05 2 7 3 1 2 6 3 5\n", "5  2 7 3 1 2 6 3 5\n", "4294967296 2 7 3 1 2 6 3 5\n",
        "4294967295 2 7 3 1 2 6 3 5\n", "256 2 7 3 1 2 6 3 5\n", "5 2 7 3 1 2 6 3 5 \n", " 5 2 7 3 1 2 6 3 5\n",
        "5\t2 7 3 1 2 6 3 5\n", "5 2 7 3 1 2 6 3 5\r\n", "-5 2 7 3 1 2 6 3 5\n", "5 2 7 3 1 2 6 3 5 0\n", "\u{0}\n",
    ];
    let mut words: Vec<String> = lines.map(str::to_string).to_vec();
    words.extend([16_383, 16_384, 16_385, 40_000].map(long));
    words.extend([8, 9, 10, 961, 1023, 1024, 1025, 1033, 8192, 8193].map(many));
    for word in &words {
        same(format!("{HEAD}{word}{}", WORDS.concat()).as_bytes());
        same(format!("{HEAD}{}{word}", WORDS.concat()).as_bytes());
        same(format!("{HEAD}{}", word.trim_end_matches('\n')).as_bytes());
    }
    same((HEAD.to_string() + &words.concat()).as_bytes());
}

#[test]
fn random_bytes() {
    for seed in 0..200 {
        let mut random = Random(seed);
        let mut input = (HEAD.to_string() + &WORDS.concat().repeat(3)).into_bytes();
        for _ in 0..1 + random.below(4) {
            let place = random.below(input.len() as u64) as usize;
            match random.below(3) {
                0 => input[place] = random.pick(b"\n\r 0123456789x\xff"),
                1 => input.insert(place, random.pick(b"\n 0")),
                _ => drop(input.remove(place)),
            }
        }
        let (own, other) = (run(&["tally"], &input), proved(&[], &input));
        assert_eq!(own.output, other.output, "{seed}");
    }
}

/// What follows 2^32 - 1 bytes counts as absent, and the line that is cut there gets 10.
#[test]
fn the_limit() {
    let file = Scratch::new((HEAD.to_string() + WORDS[0]).as_bytes());
    let mut input = OpenOptions::new().write(true).open(&file.0).expect("the file is there");
    input.seek(SeekFrom::Start((1 << 32) - 19)).expect("a hole takes no room");
    input.write_all(b"\n5 2 7 3 1 2 6 3 5\n5 2 7 3 1 2 6 3 5\n").expect("the end of the file");
    let (own, other) = (run(&["tally", file.name()], b""), proved(&[file.name()], b""));
    assert_eq!(own.output, "outcome page fixed\ntaken 1 0\nrefused 10 0\nrefused 10 0\nfunction calls\n3 1\n5 1\n");
    assert_eq!((own.output, own.status), (other.output, Some(1)));
    assert!(own.error.contains("4294967295 bytes were read") && own.error.lines().count() == 1, "{}", own.error);
}

/// Equal damage to two symbols of a row: hidden from the clean way, and too much for the vote.
#[test]
fn ways() {
    let capture = "q n b\n3 3 3\nword\n3 6 5 2 4 6 6 5 3\n";
    // Once it is read it is no page: it has more marks than this shape holds.
    for (way, answer) in [("clean", 4), ("vote", 15), ("two", 6), ("nearest", 6)] {
        let ran = run(&["tally", "--way", way], capture.as_bytes());
        assert_eq!(ran.output, format!("outcome page fixed\nrefused {answer} 0\nfunction calls\n"));
        assert_eq!(ran.status, Some(1));
        assert_eq!(run(&["tally", &format!("--way={way}")], capture.as_bytes()).output, ran.output);
    }
    let two = run(&["tally", "--way=two"], (HEAD.to_string() + WORDS[0]).as_bytes());
    assert_eq!(two.output, "outcome page fixed\nrefused 16 0\nfunction calls\n");
    let wrong = run(&["tally", "--way", "guess"], HEAD.as_bytes());
    assert!(wrong.complaint().starts_with("--way guess: "));
}

#[test]
fn files_that_cannot_be_read() {
    for name in ["/no/such/file", "", "/"] {
        run(&["tally", name], HEAD.as_bytes()).complaint();
    }
    assert!(run(&["tally", "a", "b"], b"").complaint().starts_with("b: "));
}
