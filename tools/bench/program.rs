//! A program that is run on one input again and again.

use std::fs::File;
use std::path::{Path, PathBuf};
use std::process::{Command, Stdio};
use std::time::{Duration, Instant};

pub struct Program {
    path: PathBuf,
    input: Input,
    pub best: Duration,
}

/// The input as a file, which goes when it is no longer needed; in memory where the machine has such a place.
struct Input(PathBuf);

impl Drop for Input {
    fn drop(&mut self) {
        let _stays_if_it_must = std::fs::remove_file(&self.0);
    }
}

impl Program {
    pub fn at(path: &Path, input: &[u8]) -> Result<Program, String> {
        let whole = std::fs::canonicalize(path).map_err(|why| format!("no program at {}: {why}", path.display()))?;
        let memory = PathBuf::from("/dev/shm");
        let folder = if memory.is_dir() { memory } else { std::env::temp_dir() };
        let name = whole.file_name().unwrap_or_default().to_string_lossy().into_owned();
        let kept = Input(folder.join(format!("bench-{}-{name}", std::process::id())));
        std::fs::write(&kept.0, input).map_err(|why| format!("{}: {why}", kept.0.display()))?;
        Ok(Program { path: whole, input: kept, best: Duration::MAX })
    }

    /// What the program prints. Its time counts where it is the best so far.
    pub fn run(&mut self) -> Result<Vec<u8>, String> {
        let wrong = |why: std::io::Error| format!("{}: {why}", self.path.display());
        let input = File::open(&self.input.0).map_err(wrong)?;
        let started = Instant::now();
        let output = Command::new(&self.path).stdin(Stdio::from(input)).output().map_err(wrong)?;
        self.best = self.best.min(started.elapsed());
        if !output.status.success() {
            return Err(format!("{} ended with {}", self.path.display(), output.status));
        }
        Ok(output.stdout)
    }
}
