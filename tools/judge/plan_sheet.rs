//! How a plan sheet is judged. A plan is its steps; a step is the numbers of its moves.

use super::depot::Depot;
use super::kinds::is_name;
use super::lines::{lines, Line};
use super::refusals::{Fault, Reason, Sheet};

const MOST_BYTES: usize = 16_384;
const MOST_LINES: usize = 64;
const MOST_MOVES: usize = 8;

pub type Step = Vec<usize>;

pub fn read(depot: &Depot, sheet: &[u8]) -> Result<Vec<Step>, Fault> {
    if sheet.len() > MOST_BYTES {
        return Err(Fault::on(Sheet::Plan, 0, Reason::TooLarge));
    }
    let judged = (1..)
        .zip(lines(sheet))
        .map(|(number, line)| judge_line(depot, number, line).map_err(|reason| Fault::on(Sheet::Plan, number, reason)));
    judged.collect()
}

fn judge_line(depot: &Depot, number: usize, line: Line) -> Result<Step, Reason> {
    if !line.is_legible() {
        return Err(Reason::Illegible);
    }
    let names = line.fields();
    if names.len() > MOST_MOVES {
        return Err(Reason::FieldCount);
    }
    if let Some(index) = names.iter().position(|name| !is_name(name)) {
        return Err(Reason::NotItsForm { field: index + 1 });
    }
    let moves: Vec<Option<usize>> = names.iter().map(|name| depot.number_of_move(name)).collect();
    if let Some(index) = moves.iter().position(Option::is_none) {
        return Err(Reason::NotListed { field: index + 1 });
    }
    if let Some(index) = (0..names.len()).find(|&later| names[..later].contains(&names[later])) {
        return Err(Reason::Twice { field: index + 1 });
    }
    if number > MOST_LINES {
        return Err(Reason::Full);
    }
    Ok(moves.into_iter().flatten().collect())
}
