//! An input without its counts is no tally: the report says so and has the answers that are there.

mod common;

use common::report;

const SAID: &str = "This is no tally: ";

/// Page and text of an input that is no tally, the page's markup taken out of it, and the page's headings.
fn reports(input: &str) -> ([String; 2], Vec<String>) {
    let page = report(&[], input.as_bytes());
    let text = report(&["--text"], input.as_bytes());
    for ran in [&page, &text] {
        assert_eq!(ran.status, Some(2));
        assert!(ran.error.starts_with(&format!("shaftglimmer: standard input: {SAID}")), "{}", ran.error);
        assert_eq!(ran.error.lines().count(), 1);
    }
    let sections = common::markup::sections(&page.output);
    let headings: Vec<String> = sections.iter().map(|section| section.heading.clone()).collect();
    assert!(sections[0].text.contains(SAID));
    let page: String = sections.iter().map(|section| section.text.clone()).collect();
    ([page, text.output].map(|report| report.replace('\n', " ")), headings)
}

/// The same where answers are shown.
fn answers(input: &str) -> [String; 2] {
    let (reports, headings) = reports(input);
    assert_eq!(headings, ["", "The run", "Refused words", "Pages", "Symbols restored over the run", ""]);
    reports
}

#[test]
fn nothing_at_all() {
    for input in ["", "outco", "outcome page fixed", "outcome page fixed\n"] {
        for report in answers(input) {
            assert!(
                report.contains(SAID) && report.contains("No page came.") && report.contains("No word was refused.")
            );
            assert_eq!(report.contains("last line is cut"), !input.is_empty() && !input.ends_with('\n'));
        }
    }
}

/// There are no words and no refused words then, whether it is a tally or a capture.
#[test]
fn a_fault_in_the_first_lines() {
    let faults = [
        ("outcome page fixed\nrefused 1 0\n", "one of the first three lines of the capture is at fault (1 shape)"),
        ("outcome page fixed\nrefused 10 0\n", "one of the first three lines of the capture is at fault (10 text)"),
        ("q n b\n9 2 8\nword\n1 2\n", "line 2 of the capture is at fault (1 shape)"),
        ("q n b\n3 2\nword\n1 2\n", "Line 2: expected the three values of q, n and b."),
        ("q n b\n3 2 8\nwords\n1 2\n", "Line 3: expected 'word'."),
        ("q n b\n3 2 8\nword\r\n1 2\n", "The line ends with a carriage return."),
        ("q n b\n", "Line 2: expected the three values of q, n and b."),
    ];
    for (input, said) in faults {
        let (reports, headings) = reports(input);
        assert_eq!(headings, ["", ""], "nothing but the header and the footer");
        for report in reports {
            assert!(report.contains(said), "{input:?}: {report}");
            assert!(!report.contains("refused") && !report.contains("word came"), "{report}");
        }
    }
    for report in answers("outcome page fixed\nrefused 4 0\n") {
        assert!(!report.contains("at fault"));
        assert!(report.contains("Lines of the capture: 4."));
    }
}

#[test]
fn every_word_refused() {
    let shape = "Every word was refused: look at the shape first";
    let ends = "Every word line is malformed: look for carriage returns";
    for (answers, said) in [
        ("refused 4 0\nrefused 2 0\n", Some(shape)),
        ("refused 10 0\nrefused 2 0\n", Some(shape)),
        ("refused 10 0\nrefused 10 0\n", Some(ends)),
        ("refused 10 0\ntaken 2 0\n", None),
        ("", None),
    ] {
        let tally = format!("outcome page fixed\n{answers}function calls\n");
        for option in [&[][..], &["--text"]] {
            let report = report(option, tally.as_bytes()).whole().replace('\n', " ");
            assert_eq!([shape, ends].map(|one| report.contains(one)), [shape, ends].map(|one| said == Some(one)));
        }
    }
}

/// A tally whose last line has no newline may lack counts, and digits of the last one.
#[test]
fn the_last_line_is_cut() {
    for counts in ["3 1", "3", "3 1\n5", "3 1\n5 ", "3 1\n5 12"] {
        for report in answers(&format!("outcome page fixed\ntaken 7 2\nfunction calls\n{counts}")) {
            assert!(report.contains("the last line is cut") && report.contains("2 symbols were restored"), "{report}");
            assert!(!report.contains("Not called") && !report.contains("was called most"));
        }
    }
}

#[test]
fn answers_that_are_there() {
    let whole = "outcome page fixed\ntaken 7 2\nagain 7 1\nrefused 4 0\n";
    for cut in [
        "", "t", "taken", "taken ", "taken 12", "taken 12 ", "taken 12 1", "again 7", "refused 1", "function",
        "function calls",
    ] {
        for report in answers(&format!("{whole}{cut}")) {
            assert!(["0-6", "0\u{2013}6"]
                .iter()
                .any(|missing| report.contains(&format!("Came: 7 Missing: {missing}"))));
            assert!(report.contains("3 symbols were restored, in 2 of 2 words read."));
            assert!(report.contains("A read or a write failed"));
            assert_eq!(report.contains("last line is cut"), !cut.is_empty());
            assert!(!report.contains("alls,") && !report.contains("Not called"));
        }
    }
}
