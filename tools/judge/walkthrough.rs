//! A walkthrough and its four calls. Each is shown a depot, which may be empty.

use super::depot::Depot;
use super::refusals::Reason;
use super::steps::{after, is_true, judge, Standing};

#[derive(Clone)]
pub struct Walkthrough {
    standing: Standing,
}

/// A call on a walkthrough, with its numbers.
#[derive(Clone, Debug)]
pub enum Call {
    Step(Vec<usize>),
    Truth(usize),
    Look(usize),
}

/// What a call answers where it does not refuse.
#[derive(Clone, Copy, PartialEq, Eq, Debug)]
pub enum Reply {
    Changed(usize),
    Yes,
    No,
}

impl Walkthrough {
    pub fn make(depot: Option<&Depot>) -> Result<Walkthrough, Reason> {
        let depot = depot.ok_or(Reason::EmptyDepot)?;
        let mut standing = Standing::nothing();
        depot.started.iter().for_each(|&fact| standing.add(depot, fact));
        Ok(Walkthrough { standing })
    }

    pub fn look(&self, depot: Option<&Depot>, fact: usize) -> Result<bool, Reason> {
        let listed = depot.and_then(|depot| depot.fact_with(fact));
        listed.map(|_| self.standing.stands(fact)).ok_or(Reason::NoSuchNumber)
    }

    pub fn truth(&self, depot: Option<&Depot>, formula: usize) -> Result<bool, Reason> {
        let shown = depot.filter(|depot| depot.formula_with(formula).is_some());
        shown.map(|depot| is_true(depot, &self.standing, formula)).ok_or(Reason::NoSuchNumber)
    }

    /// Does a step and answers how many listed facts changed.
    pub fn step(&mut self, depot: Option<&Depot>, moves: &[usize]) -> Result<usize, Reason> {
        let nothing = Depot::default();
        let depot = depot.unwrap_or(&nothing);
        let moves = judge(depot, &self.standing, moves)?;
        let then = after(depot, &self.standing, &moves);
        let changes = depot.fact_numbers().filter(|&fact| self.standing.stands(fact) != then.stands(fact)).count();
        self.standing = then;
        Ok(changes)
    }

    pub fn answer(&mut self, depot: Option<&Depot>, call: &Call) -> Result<Reply, Reason> {
        let told = |yes| if yes { Reply::Yes } else { Reply::No };
        match call {
            Call::Step(moves) => self.step(depot, moves).map(Reply::Changed),
            Call::Truth(formula) => self.truth(depot, *formula).map(told),
            Call::Look(fact) => self.look(depot, *fact).map(told),
        }
    }
}

/// An answer as it is printed: `ok` and a count, `y`, `n`, or `NO`, the number and four details.
pub fn told(answer: Result<Reply, Reason>) -> String {
    match answer {
        Ok(Reply::Changed(facts)) => format!("ok {facts}"),
        Ok(Reply::Yes) => "y".to_string(),
        Ok(Reply::No) => "n".to_string(),
        Err(reason) => reason.told(" "),
    }
}
