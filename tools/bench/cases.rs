//! The largest cases: made here, or read from a folder.

use crate::full;
use std::io::Error;
use std::path::Path;

pub struct Case {
    pub name: String,
    depot: Vec<u8>,
    plan: Vec<u8>,
}

impl Case {
    /// The case as a pair in the input of `batch`.
    pub fn pair(&self) -> Vec<u8> {
        let line = format!("pair {} {}\n", self.depot.len(), self.plan.len());
        [line.as_bytes(), &self.depot, &self.plan].concat()
    }
}

/// The cases of a folder, in the order of their names. A sheet that is missing is empty.
pub fn read(folder: &Path) -> Result<Vec<Case>, Error> {
    let mut cases = Vec::new();
    for entry in std::fs::read_dir(folder)? {
        let entry = entry?;
        let sheet = |name| std::fs::read(entry.path().join(name)).unwrap_or_default();
        let name = entry.file_name().to_string_lossy().into_owned();
        cases.push(Case { name, depot: sheet("depot.tsv"), plan: sheet("plan.tsv") });
    }
    cases.sort_by(|one, other| one.name.cmp(&other.name));
    Ok(cases)
}

/// Two full depots with a full plan, one that is refused as late as can be, and one as small as most are.
pub fn made() -> Vec<Case> {
    let case = |name: &str, depot: Vec<u8>, plan: &str| Case { name: name.to_string(), depot, plan: plan.into() };
    vec![
        case("plain, 64 steps of 8 moves", full::depot(full::plain, full::GOAL_FACTS), &full::plan()),
        case("sight, 64 steps of 8 moves", full::depot(full::sight, full::GOAL_FACTS), &full::plan()),
        case("sight, depot refused at its last line", full::depot(full::sight, full::GOAL_FACTS + 1), &full::plan()),
        case("a small depot, 2 steps", SMALL.into(), "tell\nreset\n"),
    ]
}

const SMALL: &str = "K\tsight
Z\tscan
Z\tdiv
P\tclear
P\tcount
F\tclear
F\tscan.clear
F\tdiv.clear
F\tall.clear
F\tcount
I\tclear
I\tscan.clear
M\ttell\t(clear&scan.clear)
E\t()\tdiv.clear\t-
M\treset\t(clear&div.clear)
E\t()\tcount\t-
G\tcount
";
