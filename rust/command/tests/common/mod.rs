//! What the tests share: the program run, files for it, random numbers.
#![allow(dead_code)] // each test uses its part

pub mod answers;
pub mod drawn;
pub mod expected;
pub mod facts;
pub mod json;
pub mod markup;

use std::fs;
use std::io::Write;
use std::path::PathBuf;
use std::process::{Command, Stdio};
use std::sync::atomic::{AtomicUsize, Ordering};

pub const ROOT: &str = concat!(env!("CARGO_MANIFEST_DIR"), "/../..");

/// What a run of the program left.
pub struct Ran {
    pub status: Option<i32>,
    pub output: String,
    pub error: String,
}

impl Ran {
    /// The one line that is said where there is nothing else to write.
    pub fn complaint(&self) -> &str {
        assert_eq!((self.status, self.output.as_str()), (Some(2), ""), "{}", self.error);
        let line = self.error.strip_suffix('\n').expect("a line ends with a newline");
        assert!(!line.contains('\n'), "more than a line: {line}");
        line.strip_prefix("shaftglimmer: ").expect("the program's name stands first")
    }

    /// What was asked for, without a word besides.
    pub fn whole(self) -> String {
        assert_eq!((self.status, self.error.as_str()), (Some(0), ""));
        self.output
    }
}

/// The command with these arguments.
pub fn run(arguments: &[&str], input: &[u8]) -> Ran {
    run_program(env!("CARGO_BIN_EXE_shaftglimmer"), arguments, input)
}

/// The report of this input.
pub fn report(arguments: &[&str], input: &[u8]) -> Ran {
    run(&[&["report"], arguments].concat(), input)
}

/// The proved program, on the same input.
pub fn proved(arguments: &[&str], input: &[u8]) -> Ran {
    let built = format!("{ROOT}/target/bin/tally");
    let program = std::env::var("TALLY").unwrap_or(built);
    run_program(&program, arguments, input)
}

fn run_program(program: &str, arguments: &[&str], input: &[u8]) -> Ran {
    let mut command = Command::new(program);
    command.args(arguments).stdin(Stdio::piped()).stdout(Stdio::piped()).stderr(Stdio::piped());
    let mut child = command.spawn().unwrap_or_else(|error| panic!("{program}: {error}"));
    let mut stdin = child.stdin.take().expect("it is piped");
    let input = input.to_vec();
    // Fails if the program ends without reading, which is for the test to judge.
    let written = std::thread::spawn(move || stdin.write_all(&input));
    let output = child.wait_with_output().expect("the program ends");
    let _ = written.join();
    Ran {
        status: output.status.code(),
        output: String::from_utf8(output.stdout).expect("what is written is UTF-8"),
        error: String::from_utf8(output.stderr).expect("what is said is UTF-8"),
    }
}

/// A file that is removed at the end.
pub struct Scratch(pub PathBuf);

impl Scratch {
    pub fn new(contents: &[u8]) -> Scratch {
        static NUMBER: AtomicUsize = AtomicUsize::new(0);
        let number = NUMBER.fetch_add(1, Ordering::Relaxed);
        let path = PathBuf::from(env!("CARGO_TARGET_TMPDIR")).join(format!("{}-{number}", std::process::id()));
        fs::write(&path, contents).expect("the test's folder can be written");
        Scratch(path)
    }

    pub fn name(&self) -> &str {
        self.0.to_str().expect("the test's folder has a plain name")
    }
}

impl Drop for Scratch {
    fn drop(&mut self) {
        let _ = fs::remove_file(&self.0);
    }
}

/// SplitMix64.
pub struct Random(pub u64);

impl Random {
    pub fn draw(&mut self) -> u64 {
        self.0 = self.0.wrapping_add(0x9e37_79b9_7f4a_7c15);
        let mut mixed = self.0;
        mixed = (mixed ^ (mixed >> 30)).wrapping_mul(0xbf58_476d_1ce4_e5b9);
        mixed = (mixed ^ (mixed >> 27)).wrapping_mul(0x94d0_49bb_1331_11eb);
        mixed ^ (mixed >> 31)
    }

    pub fn below(&mut self, bound: u64) -> u64 {
        self.draw() % bound
    }

    pub fn pick<T: Clone>(&mut self, from: &[T]) -> T {
        from[self.below(from.len() as u64) as usize].clone()
    }

    /// Small ones and large ones.
    pub fn number(&mut self) -> u32 {
        let number = (self.draw() >> 32) as u32;
        match self.below(8) {
            0 => u32::MAX,
            1 => number,
            _ => number >> self.below(32),
        }
    }
}
