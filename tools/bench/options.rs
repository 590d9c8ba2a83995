//! What the caller asks for.

use std::path::PathBuf;

const USE: &str = "use: bench [--times N] [--rounds N] [--batch P] [--fast P] [FOLDER]
  --times N   how often a case stands in the input of one run (50)
  --rounds N  how many runs there are of each program; the best counts (20)
  --batch P   the program to measure (crates/batch/out/batch)
  --fast P    the one beside it (target/fast)
  FOLDER      a folder of cases, each a folder with depot.tsv and plan.tsv";

pub struct Options {
    pub times: u32,
    pub rounds: u32,
    pub batch: PathBuf,
    pub fast: PathBuf,
    pub folder: Option<PathBuf>,
}

impl Options {
    pub fn read(mut arguments: impl Iterator<Item = String>) -> Result<Options, String> {
        let mut options = Options {
            times: 50,
            rounds: 20,
            batch: PathBuf::from("crates/batch/out/batch"),
            fast: PathBuf::from("target/fast"),
            folder: None,
        };
        while let Some(argument) = arguments.next() {
            let mut value = || arguments.next().ok_or(format!("{argument} has no value\n{USE}"));
            match argument.as_str() {
                "--times" => options.times = number(&value()?)?,
                "--rounds" => options.rounds = number(&value()?)?,
                "--batch" => options.batch = PathBuf::from(value()?),
                "--fast" => options.fast = PathBuf::from(value()?),
                _ if argument.starts_with("--") => return Err(format!("unknown: {argument}\n{USE}")),
                _ => options.folder = Some(PathBuf::from(argument)),
            }
        }
        Ok(options)
    }
}

fn number(text: &str) -> Result<u32, String> {
    text.parse().ok().filter(|&number| number > 0).ok_or(format!("no number above 0: {text}\n{USE}"))
}
