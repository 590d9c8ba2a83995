//! How a plan sheet is judged.

use super::lines::{lines, Line};
use super::names::{name, Table};
use super::refusals::{Fault, Reason, Sheet, Trouble};

const MOST_BYTES: usize = 16_384;
const MOST_LINES: usize = 64;
const MOST_MOVES: usize = 8;

/// The numbers of a step's moves, from 0.
#[derive(Clone, Copy)]
pub struct Step {
    moves: [u8; MOST_MOVES],
    count: usize,
}

impl Step {
    pub fn moves(&self) -> impl Iterator<Item = usize> + '_ {
        self.moves[..self.count].iter().map(|&number| number as usize)
    }
}

pub fn read(names: &Table, sheet: &[u8]) -> Result<Vec<Step>, Fault> {
    let fault = |line, reason| Fault { sheet: Sheet::Plan, line, reason };
    if sheet.len() > MOST_BYTES {
        return Err(fault(0, Reason::TooLarge));
    }
    let mut steps = Vec::with_capacity(MOST_LINES);
    for (line, number) in lines(sheet).zip(1..) {
        let step = step(names, line).map_err(|reason| fault(number, reason))?;
        if number > MOST_LINES {
            return Err(fault(number, Reason::Full));
        }
        steps.push(step);
    }
    Ok(steps)
}

fn step(names: &Table, line: Line) -> Result<Step, Reason> {
    if !line.is_legible() {
        return Err(Reason::Illegible);
    }
    let (fields, count) = line.fields::<MOST_MOVES>();
    let fields = fields.get(..count).ok_or(Reason::FieldCount)?;
    let mut step = Step { moves: [0; MOST_MOVES], count };
    let mut unlisted = None;
    for (index, field) in fields.iter().enumerate() {
        let name = name(field).ok_or(Trouble::NotItsForm.at(index + 1))?;
        match names.find(name) {
            Some(number) => step.moves[index] = number as u8,
            None => unlisted = unlisted.or(Some(index + 1)),
        }
    }
    if let Some(field) = unlisted {
        return Err(Trouble::NotListed.at(field));
    }
    let mut seen = 0u64;
    for (index, number) in step.moves().enumerate() {
        if seen >> number & 1 == 1 {
            return Err(Trouble::Twice.at(index + 1));
        }
        seen |= 1 << number;
    }
    Ok(step)
}
