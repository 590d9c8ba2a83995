//! The report on a pair of sheets.

use super::facts::bits;
use super::lines::lines;
use super::refusals::{Fault, Reason, Sheet};
use super::{depot_sheet, plan_sheet, steps};

/// Adds the report on two sheets to what is printed.
pub fn write(depot: &[u8], plan: &[u8], printed: &mut Vec<u8>) {
    if let Err(fault) = write_acceptance(depot, plan, printed) {
        write_refusal(depot, plan, fault, printed);
    }
}

fn write_acceptance(depot: &[u8], plan: &[u8], printed: &mut Vec<u8>) -> Result<(), Fault> {
    let depot = depot_sheet::read(depot)?;
    let steps = plan_sheet::read(&depot.names, plan)?;
    let fault = |line, reason| Fault { sheet: Sheet::Plan, line, reason };
    let mut standing = depot.started;
    for (step, line) in steps.iter().zip(1..) {
        standing = steps::judge(&depot, standing, step).map_err(|reason| fault(line, reason))?;
    }
    let goal = depot.formulas.get(depot.formulas.len() - 1);
    if !depot.formulas.is_true(goal, standing) {
        return Err(fault(steps.len(), Reason::GoalFalse));
    }
    printed.extend_from_slice(b"OK\t");
    write_number(steps.len(), printed);
    printed.push(b'\n');
    for fact in bits(standing) {
        write_line(b'T', depot.facts.texts[fact], printed);
    }
    Ok(())
}

fn write_refusal(depot: &[u8], plan: &[u8], fault: Fault, printed: &mut Vec<u8>) {
    let (sheet, word): (_, &[u8]) = match fault.sheet {
        Sheet::Depot => (depot, b"\tdepot\t"),
        Sheet::Plan => (plan, b"\tplan\t"),
    };
    printed.extend_from_slice(b"NO\t");
    write_number(fault.reason.number(), printed);
    printed.extend_from_slice(word);
    write_number(fault.line, printed);
    for detail in fault.reason.details() {
        printed.push(b'\t');
        write_number(detail, printed);
    }
    printed.push(b'\n');
    let shown = fault.line.checked_sub(1).filter(|_| fault.reason.shows_line());
    if let Some(line) = shown.and_then(|index| lines(sheet).nth(index)) {
        write_line(b'L', line.text, printed);
    }
}

fn write_line(letter: u8, text: &[u8], printed: &mut Vec<u8>) {
    printed.extend_from_slice(&[letter, b'\t']);
    printed.extend_from_slice(text);
    printed.push(b'\n');
}

fn write_number(number: usize, printed: &mut Vec<u8>) {
    if number >= 10 {
        write_number(number / 10, printed);
    }
    printed.push(b'0' + (number % 10) as u8);
}
