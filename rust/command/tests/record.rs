//! `shaftglimmer record` writes captures that `shaftglimmer tally` reads, damaged as was asked for.

mod common;

use common::run;

const PAGES: &str = "0 1 2 3\n1 1 255\n2\n3 0 0 7\n1023 1\n";
const COUNTS: &str = "1 3\n2 1\n3 1\n7 1\n255 1\n";

fn record(arguments: &[&str], pages: &str) -> String {
    run(&[&["record"], arguments].concat(), pages.as_bytes()).whole()
}

/// Answers and counts of a capture.
fn tally(way: &str, capture: &str) -> (Vec<String>, String) {
    let output = run(&["tally", "--way", way], capture.as_bytes()).output;
    let (answers, counts) = output.split_once("function calls\n").expect("a tally");
    (answers.lines().skip(1).map(str::to_string).collect(), counts.to_string())
}

#[test]
fn whole_pages() {
    assert_eq!(record(&["3", "2", "8"], "1 3 5\n"), "q n b\n3 2 8\nword\n5 2 7 3 1 2 6 3 5\n");
    assert_eq!(record(&["3", "2", "8"], ""), "q n b\n3 2 8\nword\n");
    let (answers, counts) = tally("clean", &record(&["5", "3", "10"], PAGES));
    assert_eq!(answers, ["taken 0 0", "taken 1 0", "taken 2 0", "taken 3 0", "taken 1023 0"]);
    assert_eq!(counts, COUNTS);
}

/// Every word is damaged, and the way of that name undoes it.
#[test]
fn damage_that_is_undone() {
    for n in ["2", "3", "4", "5"] {
        for kind in ["clean", "vote", "two", "nearest"] {
            if (n, kind) == ("2", "two") {
                continue;
            }
            for seed in ["1", "2", "3", "18446744073709551615"] {
                let capture = record(&["--damage", kind, seed, "7", n, "10"], PAGES);
                assert_eq!(capture, record(&[&format!("--damage={kind}"), seed, "7", n, "10"], PAGES));
                let (answers, counts) = tally(kind, &capture);
                assert!(answers.iter().all(|answer| answer.starts_with("taken") && !answer.ends_with(" 0")));
                assert_eq!((answers.len(), counts.as_str()), (5, COUNTS), "{n} {kind} {seed}");
            }
        }
    }
    // The narrowest words, where there is little to choose from.
    let capture = record(&["--damage", "clean", "5", "3", "3", "1"], "0\n1\n");
    assert_eq!(tally("clean", &capture).0.iter().filter(|answer| answer.starts_with("taken")).count(), 2);
}

#[test]
fn hidden_damage() {
    for n in ["3", "4", "8"] {
        let capture = record(&["--damage", "hidden", "9", "11", n, "32"], PAGES);
        let (clean, _) = tally("clean", &capture);
        assert!(clean.iter().all(|answer| answer == "refused 4 0"), "{clean:?}");
        let (nearest, counts) = tally("nearest", &capture);
        assert!(nearest.iter().all(|answer| answer.ends_with(" 2")), "{nearest:?}");
        assert_eq!(counts, COUNTS);
    }
}

/// Nothing is written if a page is refused, wherever it stands.
#[test]
fn what_is_refused() {
    let wrong = [
        ("1024", "refusal 5 (page)"),
        ("1 256", "refusal 7 (function)"),
        ("1 1 1 1 1 1 1 1 1 1 1 1 1", "refusal 6 (count)"),
        ("1 2  3", "refusal 10 (text)"),
        ("x", "refusal 10 (text)"),
        ("", "refusal 10 (text)"),
        ("1 2\r", "The line ends with a carriage return"),
    ];
    for (line, said) in wrong {
        let ran = run(&["record", "5", "3", "16"], format!("0 1\n{line}\n1 1\n").as_bytes());
        assert!(ran.complaint().starts_with("standard input: line 2: ") && ran.error.contains(said), "{}", ran.error);
    }
    assert!(run(&["record", "5", "3", "16"], b"0 1\n1 1").complaint().contains("line 2: the last line is cut"));
    let many = format!("0 {}\n", vec!["1"; 2000].join(" "));
    assert!(run(&["record", "31", "2", "16"], many.as_bytes()).complaint().contains("refusal 6"));
    let wrong: [(&[&str], &str); 9] = [
        (&["9", "3", "16"], "Q N B: refusal 1 (shape)"),
        (&["5", "3"], "record: the shape is missing"),
        (&["5", "3", "16", "1"], "record: the shape is missing"),
        (&["5", "x", "16"], "x: N is a whole number"),
        (&["--damage", "clean", "7"], "record: the shape is missing"),
        (&["5", "3", "16", "--damage", "clean"], "--damage: a value is missing"),
        (&["5", "3", "16", "--damage", "much", "1"], "--damage much: there is no such kind"),
        (&["5", "3", "16", "--damage", "clean", "x"], "x: SEED is a whole number"),
        (&["5", "2", "16", "--damage", "hidden", "1"], "--damage: refusal 16 (directions)"),
    ];
    for (arguments, said) in wrong {
        let ran = run(&[&["record"], arguments].concat(), b"");
        assert!(ran.complaint().starts_with(said), "{arguments:?}: {}", ran.error);
    }
}
