//! Judges sheets by a reading of docs/ of its own, to be compared with what `restart` prints.
//!
//!     rustc -O tools/oracle.rs -o target/oracle
//!     target/oracle FOLDER              the report on FOLDER/depot.tsv and FOLDER/plan.tsv
//!     target/oracle calls DEPOT CALLS   the answers to a file of calls: `step N..`, `truth N`, `look N`, one a line

mod judge;

use judge::walkthrough::{told, Call, Walkthrough};
use judge::{check, depot_sheet};
use std::io::Write;
use std::path::Path;
use std::process::ExitCode;

fn main() -> ExitCode {
    let arguments: Vec<String> = std::env::args().skip(1).collect();
    let arguments: Vec<&str> = arguments.iter().map(String::as_str).collect();
    let printed = match arguments.as_slice() {
        ["calls", depot, calls] => answers(Path::new(depot), Path::new(calls)),
        [folder] => Ok(report(Path::new(folder))),
        _ => Err("use: oracle FOLDER, or oracle calls DEPOT CALLS".to_string()),
    };
    match printed.and_then(|bytes| std::io::stdout().write_all(&bytes).map_err(|why| why.to_string())) {
        Ok(()) => ExitCode::SUCCESS,
        Err(why) => {
            eprintln!("oracle: {why}");
            ExitCode::FAILURE
        }
    }
}

/// A sheet that cannot be read counts as empty.
fn sheet(path: &Path) -> Vec<u8> {
    std::fs::read(path).unwrap_or_default()
}

fn report(folder: &Path) -> Vec<u8> {
    check::check(&sheet(&folder.join("depot.tsv")), &sheet(&folder.join("plan.tsv")))
}

/// A depot whose sheet is refused is empty; then no walkthrough is made, and that is the one answer.
fn answers(depot: &Path, calls: &Path) -> Result<Vec<u8>, String> {
    let depot = depot_sheet::read(&sheet(depot)).ok();
    let text = std::fs::read_to_string(calls).map_err(|why| format!("{}: {why}", calls.display()))?;
    let calls: Vec<Call> = text.lines().map(call).collect::<Result<_, _>>()?;
    let mut walkthrough = match Walkthrough::make(depot.as_ref()) {
        Ok(walkthrough) => walkthrough,
        Err(reason) => return Ok(format!("{}\n", reason.told(" ")).into_bytes()),
    };
    let told = calls.iter().map(|call| told(walkthrough.answer(depot.as_ref(), call)) + "\n");
    Ok(told.collect::<String>().into_bytes())
}

fn call(line: &str) -> Result<Call, String> {
    let wrong = || format!("no call: {line}");
    let mut words = line.split_whitespace();
    let word = words.next().ok_or_else(wrong)?;
    let numbers: Vec<usize> = words.map(str::parse).collect::<Result<_, _>>().map_err(|_| wrong())?;
    match (word, numbers.as_slice()) {
        ("step", moves) => Ok(Call::Step(moves.to_vec())),
        ("truth", [formula]) => Ok(Call::Truth(*formula)),
        ("look", [fact]) => Ok(Call::Look(*fact)),
        _ => Err(wrong()),
    }
}
