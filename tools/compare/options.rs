//! What the caller asks for.

use std::path::PathBuf;

pub const USE: &str =
    "use: compare [--calls] [--pairs N] [--seed S] [--program P] [--threads N] [--depot] [--keep FOLDER]
  --calls        compare answers to lists of calls, not reports on pairs of sheets
  --pairs N      how many pairs of sheets or lists of calls (1000)
  --seed S       the seed of the first; each that follows has the next number (1)
  --program P    the program (crates/restart/out/restart, or crates/replay/out/replay with --calls)
  --threads N    how many run at once (2)
  --depot        only the pairs whose depot sheet is refused
  --keep FOLDER  write what differs into FOLDER, a folder for each seed";

#[derive(Clone, Copy, PartialEq, Eq)]
pub enum Mode {
    Pairs,
    Calls,
}

pub struct Options {
    pub mode: Mode,
    pub count: u64,
    pub seed: u64,
    pub program: PathBuf,
    pub threads: u64,
    pub only_depot_refusals: bool,
    pub keep: Option<PathBuf>,
}

impl Options {
    pub fn read(arguments: impl Iterator<Item = String>) -> Result<Options, String> {
        let mut options = Options {
            mode: Mode::Pairs,
            count: 1000,
            seed: 1,
            program: PathBuf::new(),
            threads: 2,
            only_depot_refusals: false,
            keep: None,
        };
        let mut arguments = arguments;
        while let Some(argument) = arguments.next() {
            let mut value = || arguments.next().ok_or(format!("{argument} has no value\n{USE}"));
            match argument.as_str() {
                "--calls" => options.mode = Mode::Calls,
                "--depot" => options.only_depot_refusals = true,
                "--pairs" => options.count = number(&value()?)?,
                "--seed" => options.seed = number(&value()?)?,
                "--threads" => options.threads = number(&value()?)?.clamp(1, 64),
                "--program" => options.program = PathBuf::from(value()?),
                "--keep" => options.keep = Some(PathBuf::from(value()?)),
                _ => return Err(format!("unknown: {argument}\n{USE}")),
            }
        }
        options.find_program()?;
        Ok(options)
    }

    /// The program runs in another folder, so its path is made whole.
    fn find_program(&mut self) -> Result<(), String> {
        if self.program.as_os_str().is_empty() {
            self.program = PathBuf::from(match self.mode {
                Mode::Pairs => "crates/restart/out/restart",
                Mode::Calls => "crates/replay/out/replay",
            });
        }
        let whole = std::fs::canonicalize(&self.program);
        self.program = whole.map_err(|why| format!("no program at {}: {why}", self.program.display()))?;
        Ok(())
    }
}

fn number(text: &str) -> Result<u64, String> {
    text.parse().map_err(|_| format!("no number: {text}\n{USE}"))
}
