//! Judges pairs of sheets as crates/batch does, written for speed alone, to be measured beside it.
//!
//!     rustc -O tools/fast.rs -o target/fast
//!     target/fast < crates/batch/stdin
//!
//! Facts are bits of a number, and a formula is read over all sets of places of a step at once.

#[path = "fast/mod.rs"]
mod judging;

use judging::pairs::Pairs;
use judging::report;
use std::io::{Read, Write};
use std::process::ExitCode;

fn main() -> ExitCode {
    match run() {
        Ok(()) => ExitCode::SUCCESS,
        Err(why) => {
            eprintln!("fast: {why}");
            ExitCode::FAILURE
        }
    }
}

fn run() -> Result<(), String> {
    let mut input = Vec::new();
    std::io::stdin().read_to_end(&mut input).map_err(|why| why.to_string())?;
    let mut printed = Vec::new();
    let judged = judge_all(&input, &mut printed);
    std::io::stdout().write_all(&printed).map_err(|why| why.to_string())?;
    judged
}

fn judge_all(input: &[u8], printed: &mut Vec<u8>) -> Result<(), String> {
    let mut report = Vec::new();
    for (pair, number) in Pairs::of(input).zip(1..) {
        let (depot, plan) = pair.map_err(|why| format!("pair {number}: {why}"))?;
        report.clear();
        report::write(depot, plan, &mut report);
        printed.extend_from_slice(format!("report {}\n", report.len()).as_bytes());
        printed.extend_from_slice(&report);
    }
    Ok(())
}
