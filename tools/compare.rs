//! Compares what the programs print with a checker of its own, on sheets and calls made at random.
//!
//!     rustc -O tools/compare.rs -o target/compare
//!     target/compare --pairs 20000
//!
//! A difference is shown with its seed: `--seed S --pairs 1 --keep FOLDER` makes the same sheets again and keeps them.

mod generate;
mod judge;
#[path = "compare/mod.rs"]
mod run;

use generate::calls::Calls;
use generate::pairs::Pair;
use judge::walkthrough::Walkthrough;
use judge::{check, depot_sheet};
use run::options::{Mode, Options};
use run::program::{self, Scratch};
use run::tally::{kind_of_answer, kind_of_report, Difference, Tally};
use std::io::Error;
use std::process::ExitCode;

fn main() -> ExitCode {
    let compared = Options::read(std::env::args().skip(1)).and_then(|options| compare_all(&options));
    match compared {
        Ok(mut tally) => {
            tally.print();
            ExitCode::from(u8::from(!tally.differences.is_empty()))
        }
        Err(why) => {
            eprintln!("compare: {why}");
            ExitCode::from(2)
        }
    }
}

/// Every thread takes each so-manieth seed, so that what is compared does not go by their number.
fn compare_all(options: &Options) -> Result<Tally, String> {
    let tallies: Vec<Result<Tally, Error>> = std::thread::scope(|scope| {
        let started: Vec<_> =
            (0..options.threads).map(|thread| scope.spawn(move || run_thread(options, thread))).collect();
        started
            .into_iter()
            .map(|thread| thread.join().unwrap_or_else(|_| Err(Error::other("a thread broke off"))))
            .collect()
    });
    let mut all = Tally::default();
    for tally in tallies {
        all.join(tally.map_err(|why| why.to_string())?);
    }
    Ok(all)
}

fn run_thread(options: &Options, thread: u64) -> Result<Tally, Error> {
    let scratch = Scratch::make(thread)?;
    let mut tally = Tally::default();
    for index in (thread..options.count).step_by(options.threads as usize) {
        let seed = options.seed.wrapping_add(index);
        match options.mode {
            Mode::Pairs => compare_pair(options, &scratch, seed, &mut tally)?,
            Mode::Calls => compare_calls(options, seed, &mut tally)?,
        }
    }
    Ok(tally)
}

fn compare_pair(options: &Options, scratch: &Scratch, seed: u64, tally: &mut Tally) -> Result<(), Error> {
    let Pair { depot, plan } = generate::pairs::pair(seed);
    let expected = check::check(&depot, &plan);
    let kind = kind_of_report(&expected);
    if options.only_depot_refusals && !kind.ends_with("depot") {
        return Ok(());
    }
    let printed = program::report(&options.program, scratch, &depot, &plan, seed)?;
    tally.count(kind);
    note(options, tally, Difference { seed, expected, printed }, &[("depot.tsv", &depot), ("plan.tsv", &plan)])
}

fn compare_calls(options: &Options, seed: u64, tally: &mut Tally) -> Result<(), Error> {
    let read = |sheet: &[u8]| depot_sheet::read(sheet).ok();
    let Some(Calls { depot, calls }) = generate::calls::calls(seed, read) else { return Ok(()) };
    let shown = read(&depot);
    let Ok(mut walkthrough) = Walkthrough::make(shown.as_ref()) else { return Ok(()) };
    let mut expected = String::new();
    for call in &calls {
        let answer = judge::walkthrough::told(walkthrough.answer(shown.as_ref(), call));
        tally.count(kind_of_answer(&answer));
        expected += &(answer + "\n");
    }
    let printed = program::answers(&options.program, &depot, &calls)?;
    let lines: String = calls.iter().map(|call| program::line_of_call(call) + "\n").collect();
    let difference = Difference { seed, expected: expected.into_bytes(), printed };
    note(options, tally, difference, &[("depot.tsv", &depot), ("calls", lines.as_bytes())])
}

/// Counts what was compared, and keeps what differs.
fn note(options: &Options, tally: &mut Tally, found: Difference, files: &[(&str, &[u8])]) -> Result<(), Error> {
    tally.compared += 1;
    if found.expected == found.printed {
        return Ok(());
    }
    if let Some(folder) = &options.keep {
        let folder = folder.join(found.seed.to_string());
        std::fs::create_dir_all(&folder)?;
        for (name, bytes) in files {
            std::fs::write(folder.join(name), bytes)?;
        }
        std::fs::write(folder.join("expected"), &found.expected)?;
        std::fs::write(folder.join("printed"), &found.printed)?;
    }
    tally.differences.push(found);
    Ok(())
}
