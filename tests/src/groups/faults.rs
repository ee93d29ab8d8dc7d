//! Malformed text with the numbers that the rules gives it, for a capture of shape (3, 2, 8).

use crate::reference::shape::Shape;

pub const SHAPE: Shape = Shape::new(3, 2, 8);

/// The rules' capture, and what the program prints for it.
pub const EXAMPLE: (&str, &str) = (
    "q n b\n3 2 8\nword\n5 2 7 3 1 2 6 3 5\n12 2 7 3 1 2 6 3 5\n1 0 0 0 1 0 0 0 0\n",
    "outcome page fixed\ntaken 1 0\nagain 1 1\nrefused 4 0\nfunction calls\n3 1\n5 1\n",
);

/// A page's word line.
pub const GOOD: &str = "5 2 7 3 1 2 6 3 5";

/// Inputs whose line 1 is missing or malformed.
pub fn first_lines() -> Vec<(String, u32)> {
    let wrong = [
        "", " ", " q n b", "q n b ", "q  n b", "q n  b", "q\tn\tb", "Q N B", "q n", "q", "q n b b", "b n q", "qnb",
        "q,n,b", "q n b\r", "\u{feff}q n b", "\0q n b", "q n b\0", "word", "3 2 8", "outcome page fixed",
    ];
    let rest = format!("3 2 8\nword\n{GOOD}\n");
    let mut inputs: Vec<(String, u32)> = wrong.iter().map(|line| (format!("{line}\n{rest}"), 10)).collect();
    inputs.extend(["", "\n", "q", "q n b", "q n b\r"].map(|input| (input.to_string(), 10)));
    inputs.push((rest.clone(), 10));
    inputs.push((format!("\nq n b\n{rest}"), 10));
    inputs.push((format!("q n b{}\n{rest}", " ".repeat(20_000)), 10));
    inputs
}

/// Inputs whose line 2 is at fault.
pub fn second_lines() -> Vec<(String, u32)> {
    let malformed = [
        "", " ", "3", "3 2", "3 2 8 1", "3 2 8 8 8", " 3 2 8", "3 2 8 ", "3  2 8", "3 2  8", "3 2 8\r", "3\t2 8",
        "03 2 8", "3 02 8", "3 2 08", "3 2 00", "-3 2 8", "+3 2 8", "3 2 -8", "3.0 2 8", "3,2,8", "0x3 2 8", "3 2 8\0",
        "three 2 8", "q n b", "word", "4294967296 2 8", "4294967299 2 8", "3 4294967298 8", "3 2 4294967304",
        "18446744073709551619 2 8", "99999999999999999999999 2 8", "\u{663} 2 8", "3 2 8\u{a0}",
    ];
    let unlawful = [
        "0 0 0", "3 2 0", "3 2 33", "3 4 8", "3 1 8", "3 0 8", "9 2 8", "2 2 8", "37 2 8", "31 9 8", "4294967295 2 8",
        "3 4294967295 8", "3 2 4294967295", "65539 2 8", "4294967293 2 8",
    ];
    let whole = |line: &str| format!("q n b\n{line}\nword\n{GOOD}\n");
    let mut inputs: Vec<(String, u32)> = malformed.iter().map(|line| (whole(line), 10)).collect();
    inputs.extend(unlawful.iter().map(|line| (whole(line), 1)));
    // An unlawful shape is told before line 3 is looked at, but only in a line that is well formed.
    inputs.extend(
        ["q n b\n9 2 8\n", "q n b\n9 2 8\nwords\n", "q n b\n9 2 8\n\n", "q n b\n9 2 8\nword"]
            .map(|text| (text.to_string(), 1)),
    );
    inputs.extend(
        ["q n b\n", "q n b\n3 2 8", "q n b\n9 2 8", "q n b\n9 2 8 \nword\n"].map(|text| (text.to_string(), 10)),
    );
    inputs.push((whole(&"3 ".repeat(10_000)), 10));
    inputs
}

/// Inputs whose line 3 is missing or malformed.
pub fn third_lines() -> Vec<(String, u32)> {
    let wrong =
        ["", " ", "Word", " word", "word ", "words", "wor", "w", "word\r", "word\0", "word word", "q n b", GOOD];
    let start = "q n b\n3 2 8\n";
    let mut inputs: Vec<(String, u32)> = wrong.iter().map(|line| (format!("{start}{line}\n{GOOD}\n"), 10)).collect();
    inputs.extend(["", "word", "w", "\n"].map(|end| (format!("{start}{end}"), 10)));
    inputs.push((format!("{start}{}\n{GOOD}\n", "word".repeat(10_000)), 10));
    inputs
}

/// Word lines without their newline.
pub fn bad_lines() -> Vec<(Vec<u8>, u32)> {
    let malformed = [
        "", " ", "  ", " 5 2 7 3 1 2 6 3 5", "5 2 7 3 1 2 6 3 5 ", "5  2 7 3 1 2 6 3 5", "5 2 7 3 1 2 6 3  5",
        "5\t2 7 3 1 2 6 3 5", "5 2 7 3 1 2 6 3 5\r", "\r", "5 2 7 3 x 2 6 3 5", "x", "5x 2 7 3 1 2 6 3 5", "word",
        "q n b", "-5 2 7 3 1 2 6 3 5", "+5 2 7 3 1 2 6 3 5", "5 2 7 3 1 2 6 3 -0", "-", "5.0 2 7 3 1 2 6 3 5",
        "5,2,7,3,1,2,6,3,5", "0x5 2 7 3 1 2 6 3 5", "05 2 7 3 1 2 6 3 5", "5 2 7 3 01 2 6 3 5", "5 2 7 3 1 2 6 3 05",
        "00 0 0 0 0 0 0 0 0", "0 0 0 0 0 0 0 0 00", "5 2 7 3 1 2 6 3 5\0", "\0", "5\u{0}2 7 3 1 2 6 3 5",
        "4294967296 2 7 3 1 2 6 3 5", "4294967301 2 7 3 1 2 6 3 5", "5 2 7 3 1 2 6 3 4294967296",
        "5 2 7 3 1 2 6 3 18446744073709551621", "5 2 7 3 1 2 6 3 10000000000", "9999999999 2 7 3 1 2 6 3 5",
        "42949672950 2 7 3 1 2 6 3 5", "\u{665} 2 7 3 1 2 6 3 5", "5 2 7 3 1 2 6 3 5\u{b}", "5 2 7 3 1 2 6 3 5 x",
        "5 2 7 3 1 2 6 3 ", "4294967296", "5 2 7 3 1 2 6 3 5 05",
    ];
    let wrong_count = ["0", "5", "4294967295", "5 2 7 3 1 2 6 3", "5 2 7 3 1 2 6 3 5 0", "4294967295 0", "5 2"];
    let too_wide =
        ["256 2 7 3 1 2 6 3 5", "5 2 7 3 1 2 6 3 256", "4294967295 2 7 3 1 2 6 3 5", "5 2 7 3 4294967295 2 6 3 5"];
    let masked = ["1 0 0 0 1 0 0 0 0"];
    let mut lines = vec![];
    for (texts, number) in [(&malformed[..], 10), (&wrong_count, 2), (&too_wide, 3), (&masked, 4)] {
        lines.extend(texts.iter().map(|text| (text.as_bytes().to_vec(), number)));
    }
    lines.push((b"5 2 7 3 \xff 2 6 3 5".to_vec(), 10));
    lines.push((b"\xb5 2 7 3 1 2 6 3 5".to_vec(), 10));
    lines
}

/// Zeros that are a line of `length` bytes, the newline counted, without it.
pub fn zeros(length: usize) -> Vec<u8> {
    let first = if length.is_multiple_of(2) { "0" } else { "10" };
    let mut text = first.to_string();
    text += &" 0".repeat((length - 1 - first.len()) / 2);
    text.into_bytes()
}

/// Well formed lines of the wrong number of values: 2 up to the longest line there is, 10 above.
pub fn long_lines() -> Vec<(Vec<u8>, u32)> {
    let short = [16_000, 16_382, 16_383, 16_384].map(|length| (zeros(length), 2));
    let lengths =
        [16_385, 16_386, 16_387, 20_000, 32_767, 32_768, 32_769, 65_535, 65_536, 65_537, 100_000, 131_072, 1 << 20];
    let long = lengths.map(|length| (zeros(length), 10));
    let noise = [16_384, 16_385, 70_000].map(|length| (vec![b'x'; length - 1], 10));
    // A page followed or preceded by more than a line may hold.
    let padded = [format!("{GOOD}{}", " 0".repeat(10_000)), format!("{}{GOOD}", " ".repeat(16_384))];
    let padded = padded.map(|text| (text.into_bytes(), 10));
    short.into_iter().chain(long).chain(noise).chain(padded).collect()
}
