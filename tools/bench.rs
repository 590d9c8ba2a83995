//! Measures how long `batch` takes for one check, beside a checker that is written for speed alone.
//!
//!     (cd crates/batch && rt run)
//!     rustc -O tools/fast.rs -o target/fast
//!     rustc -O tools/bench.rs -o target/bench
//!     target/bench
//!
//! Each case is judged many times in one run of a program; the best of several runs counts. Starting the program, reading its
//! input and printing the reports are in the time. A folder of cases may be given in the place of those that are made here.

#[path = "bench/cases.rs"]
mod cases;
#[path = "bench/full.rs"]
mod full;
#[path = "bench/options.rs"]
mod options;
#[path = "bench/program.rs"]
mod program;

use cases::Case;
use options::Options;
use program::Program;
use std::process::ExitCode;
use std::time::Duration;

fn main() -> ExitCode {
    match Options::read(std::env::args().skip(1)).and_then(|options| measure_all(&options)) {
        Ok(()) => ExitCode::SUCCESS,
        Err(why) => {
            eprintln!("bench: {why}");
            ExitCode::FAILURE
        }
    }
}

fn measure_all(options: &Options) -> Result<(), String> {
    let cases = match &options.folder {
        Some(folder) => cases::read(folder).map_err(|why| format!("{}: {why}", folder.display()))?,
        None => cases::made(),
    };
    println!("{:>10} {:>10} {:>7}  case", "batch", "fast", "ratio");
    for case in &cases {
        let (batch, fast) = measure(options, case).map_err(|why| format!("{}: {why}", case.name))?;
        let ratio = batch.as_secs_f64() / fast.as_secs_f64();
        println!("{:>7.1} us {:>7.1} us {ratio:>7.2}  {}", micros(batch), micros(fast), case.name);
    }
    Ok(())
}

fn micros(time: Duration) -> f64 {
    time.as_secs_f64() * 1e6
}

/// The best time for one check, of each program. They take turns, so that what else the machine does falls on both.
fn measure(options: &Options, case: &Case) -> Result<(Duration, Duration), String> {
    let input = case.pair().repeat(options.times as usize);
    let mut batch = Program::at(&options.batch, &input)?;
    let mut fast = Program::at(&options.fast, &input)?;
    for _ in 0..options.rounds {
        if batch.run()? != fast.run()? {
            return Err("the programs do not print the same".to_string());
        }
    }
    Ok((batch.best / options.times, fast.best / options.times))
}
