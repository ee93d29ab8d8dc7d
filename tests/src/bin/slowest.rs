//! Words that reading the nearest codeword takes longest for, or restoring with so many dead cells:
//! `cargo run --release --bin slowest -- SEED Q N B SECONDS [PLACES]`.

#[cfg(feature = "library")]
fn main() -> std::process::ExitCode {
    shaftglimmer_tests::slowest::run()
}

#[cfg(not(feature = "library"))]
fn main() {
    eprintln!("The search needs the library: build with the feature library.");
    std::process::exit(2);
}
