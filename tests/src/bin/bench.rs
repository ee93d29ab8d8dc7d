//! The benchmark: `cargo run --release --bin bench`, after `cargo build --release`, which builds the
//! Rust program that it compares with. TALLY names the tally program's executable.

#[cfg(feature = "library")]
fn main() {
    shaftglimmer_tests::bench::run();
}

#[cfg(not(feature = "library"))]
fn main() {
    eprintln!("The benchmark needs the library: build with the feature library.");
    std::process::exit(2);
}
