//! The program under test, run in a folder of its own or fed on its standard input.

use crate::judge::walkthrough::Call;
use std::io::{Error, Write};
use std::path::{Path, PathBuf};
use std::process::{Command, Output, Stdio};

/// A folder that goes when it is no longer needed; in memory where the machine has such a place.
pub struct Scratch(PathBuf);

impl Scratch {
    pub fn make(thread: u64) -> Result<Scratch, Error> {
        let memory = PathBuf::from("/dev/shm");
        let above = if memory.is_dir() { memory } else { std::env::temp_dir() };
        let folder = above.join(format!("compare-{}-{thread}", std::process::id()));
        std::fs::create_dir_all(&folder)?;
        Ok(Scratch(folder))
    }
}

impl Drop for Scratch {
    fn drop(&mut self) {
        let _stays_if_it_must = std::fs::remove_dir_all(&self.0);
    }
}

/// What `restart` prints where the two sheets are. An empty sheet is sometimes no file at all.
pub fn report(program: &Path, scratch: &Scratch, depot: &[u8], plan: &[u8], seed: u64) -> Result<Vec<u8>, Error> {
    for (name, sheet) in [("depot.tsv", depot), ("plan.tsv", plan)] {
        let path = scratch.0.join(name);
        if sheet.is_empty() && seed.is_multiple_of(2) {
            match std::fs::remove_file(&path) {
                Err(why) if why.kind() != std::io::ErrorKind::NotFound => return Err(why),
                _ => continue,
            }
        }
        std::fs::write(path, sheet)?;
    }
    Ok(printed(Command::new(program).current_dir(&scratch.0).output()?))
}

/// What `replay` prints of a depot sheet and a list of calls.
pub fn answers(program: &Path, depot: &[u8], calls: &[Call]) -> Result<Vec<u8>, Error> {
    let mut child = Command::new(program).stdin(Stdio::piped()).stdout(Stdio::piped()).spawn()?;
    if let Some(mut stdin) = child.stdin.take() {
        // A program that ends before it has read all is judged by what it printed.
        let _may_end_early = stdin.write_all(&replay_input(depot, calls));
    }
    Ok(printed(child.wait_with_output()?))
}

/// What `replay` reads: the depot sheet, an empty line, then a line for each call.
fn replay_input(depot: &[u8], calls: &[Call]) -> Vec<u8> {
    let lines: String = calls.iter().map(|call| line_of_call(call) + "\n").collect();
    [depot, b"\n", lines.as_bytes()].concat()
}

/// `step` and its move numbers, `truth` and a formula number, or `look` and a fact number.
pub fn line_of_call(call: &Call) -> String {
    match call {
        Call::Step(moves) => {
            let words = std::iter::once("step".to_string()).chain(moves.iter().map(usize::to_string));
            words.collect::<Vec<String>>().join(" ")
        }
        Call::Truth(formula) => format!("truth {formula}"),
        Call::Look(fact) => format!("look {fact}"),
    }
}

/// What was printed, and how the program ended where that was not well.
fn printed(output: Output) -> Vec<u8> {
    let mut bytes = output.stdout;
    if !output.status.success() {
        bytes.extend(format!("({})", output.status).into_bytes());
    }
    bytes
}
