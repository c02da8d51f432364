//! Compares the program `hour` with a second implementation in plain Rust, which was written from docs/RULES.md alone:
//! random feeds, valid, full and damaged, go through both, and what they print is compared byte by byte.
//!
//!     cargo run --release -- ../crates/hour/out/hour COUNT [SEED]

mod check;
mod feeds;
mod model;

use std::process::ExitCode;

fn main() -> ExitCode {
    let arguments: Vec<String> = std::env::args().skip(1).collect();
    let arguments: Vec<&str> = arguments.iter().map(String::as_str).collect();
    let (program, count, seed) = match arguments[..] {
        [program, count] => (program, count, "1"),
        [program, count, seed] => (program, count, seed),
        _ => return usage(),
    };
    let (Ok(count), Ok(seed)) = (count.parse(), seed.parse()) else {
        return usage();
    };
    match check::compare(program, count, seed) {
        Ok(said) => {
            println!("{said}");
            ExitCode::SUCCESS
        }
        Err(difference) => {
            println!("{difference}");
            ExitCode::FAILURE
        }
    }
}

fn usage() -> ExitCode {
    eprintln!("usage: compare PROGRAM COUNT [SEED]");
    ExitCode::from(2)
}
