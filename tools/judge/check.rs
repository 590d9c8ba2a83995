//! Both sheets judged, and the report of it.

use super::depot::Depot;
use super::kinds::Text;
use super::lines::lines;
use super::refusals::{Fault, Reason, Sheet};
use super::walkthrough::Walkthrough;
use super::{depot_sheet, plan_sheet};

/// An accepted plan: how many steps it has, and the facts that stand after it.
struct Accepted {
    steps: usize,
    facts: Vec<Text>,
}

pub fn check(depot_sheet: &[u8], plan_sheet: &[u8]) -> Vec<u8> {
    match verdict(depot_sheet, plan_sheet) {
        Ok(accepted) => acceptance(&accepted),
        Err(fault) => refusal(depot_sheet, plan_sheet, fault),
    }
}

fn verdict(depot_sheet: &[u8], plan_sheet: &[u8]) -> Result<Accepted, Fault> {
    let depot = depot_sheet::read(depot_sheet)?;
    let steps = plan_sheet::read(&depot, plan_sheet)?;
    let on_plan = |line| move |reason| Fault::on(Sheet::Plan, line, reason);
    let mut walkthrough = Walkthrough::make(Some(&depot)).map_err(on_plan(0))?;
    for (line, moves) in (1..).zip(&steps) {
        walkthrough.step(Some(&depot), moves).map_err(on_plan(line))?;
    }
    if !walkthrough.truth(Some(&depot), depot.goal()).map_err(on_plan(0))? {
        return Err(Fault::on(Sheet::Plan, steps.len(), Reason::GoalFalse));
    }
    Ok(Accepted { steps: steps.len(), facts: standing_facts(&depot, &walkthrough) })
}

fn standing_facts(depot: &Depot, walkthrough: &Walkthrough) -> Vec<Text> {
    let stands = |fact: &usize| walkthrough.look(Some(depot), *fact) == Ok(true);
    depot.fact_numbers().filter(stands).filter_map(|fact| depot.fact_with(fact)).cloned().collect()
}

fn acceptance(accepted: &Accepted) -> Vec<u8> {
    let mut report = format!("OK\t{}\n", accepted.steps).into_bytes();
    for fact in &accepted.facts {
        write_line(&mut report, b'T', fact);
    }
    report
}

fn refusal(depot_sheet: &[u8], plan_sheet: &[u8], fault: Fault) -> Vec<u8> {
    let details = fault.reason.details().map(|detail| detail.to_string()).join("\t");
    let sheet = fault.sheet.word();
    let mut report = format!("NO\t{}\t{sheet}\t{}\t{details}\n", fault.reason.number(), fault.line).into_bytes();
    if ![1, 2, 10, 17].contains(&fault.reason.number()) {
        let line = faulty_line(depot_sheet, plan_sheet, fault);
        line.into_iter().for_each(|bytes| write_line(&mut report, b'L', bytes));
    }
    report
}

fn faulty_line<'a>(depot_sheet: &'a [u8], plan_sheet: &'a [u8], fault: Fault) -> Option<&'a [u8]> {
    let sheet = match fault.sheet {
        Sheet::Depot => depot_sheet,
        Sheet::Plan => plan_sheet,
    };
    let index = fault.line.checked_sub(1)?;
    lines(sheet).get(index).map(|line| line.bytes())
}

fn write_line(report: &mut Vec<u8>, letter: u8, bytes: &[u8]) {
    report.extend([letter, b'\t']);
    report.extend(bytes);
    report.push(b'\n');
}
