//! The example, on the sample capture. `cargo test` builds it first.

use std::env;
use std::process::Command;

#[test]
fn watched_sample() {
    let here = env::current_exe().expect("this program has a path");
    let program = here.ancestors().nth(2).expect("a folder for all kinds").join("examples").join("watch");
    let capture = concat!(env!("CARGO_MANIFEST_DIR"), "/../samples/capture.txt");
    let output = Command::new(&program).arg(capture).output().expect("the example runs");
    assert!(output.status.success(), "{output:?}");
    let text = String::from_utf8(output.stdout).expect("text");
    let lines: Vec<&str> = text.lines().collect();
    assert_eq!(lines.len(), 6);
    assert_eq!(lines[4], "310 words, 10 refused: 150 pages taken, page 150 is the first to wait for");
    assert_eq!(lines[5], "0 pages below page 149 never came, 255 functions were called");
    let wrong = Command::new(&program).arg("no-such-file").output().expect("the example runs");
    assert_eq!(wrong.status.code(), Some(1));
}
