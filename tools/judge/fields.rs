//! What a field of a depot sheet's line says, or the lowest trouble with it.

use super::depot::Depot;
use super::formulas::{self, Formula, MOST_DEPTH};
use super::kinds::{is_name, Kind, NoFact, Text};
use super::refusals::Reason;

/// What can be wrong with a field, the lowest first.
#[derive(Clone, Copy, PartialEq, Eq, PartialOrd, Ord)]
pub enum Trouble {
    NotItsForm,
    NotListed,
    Twice,
    AlwaysTrue,
}

impl Trouble {
    pub fn at(self, field: usize) -> Reason {
        match self {
            Trouble::NotItsForm => Reason::NotItsForm { field },
            Trouble::NotListed => Reason::NotListed { field },
            Trouble::Twice => Reason::Twice { field },
            Trouble::AlwaysTrue => Reason::AlwaysTrue { field },
        }
    }
}

impl From<NoFact> for Trouble {
    fn from(why: NoFact) -> Trouble {
        match why {
            NoFact::NotItsForm => Trouble::NotItsForm,
            NoFact::NotListed => Trouble::NotListed,
        }
    }
}

pub fn kind(word: &[u8]) -> Result<Kind, Trouble> {
    Kind::of_word(word).ok_or(Trouble::NotItsForm)
}

/// A name that is to be listed, where `listed` says which are already.
pub fn new_name(text: &[u8], is_listed: bool) -> Result<Text, Trouble> {
    match (is_name(text), is_listed) {
        (false, _) => Err(Trouble::NotItsForm),
        (true, true) => Err(Trouble::Twice),
        (true, false) => Ok(text.to_vec()),
    }
}

pub fn new_fact(depot: &Depot, text: &[u8]) -> Result<Text, Trouble> {
    depot.kind.read(&depot.names, text)?;
    if depot.number_of_fact(text).is_some() {
        return Err(Trouble::Twice);
    }
    if depot.kind.is_always_true(text) {
        return Err(Trouble::AlwaysTrue);
    }
    Ok(text.to_vec())
}

/// A listed fact, by its number.
fn listed_fact(depot: &Depot, text: &[u8]) -> Result<usize, Trouble> {
    depot.kind.read(&depot.names, text)?;
    depot.number_of_fact(text).ok_or(Trouble::NotListed)
}

pub fn new_start(depot: &Depot, text: &[u8]) -> Result<usize, Trouble> {
    let fact = listed_fact(depot, text)?;
    if depot.started.contains(&fact) {
        return Err(Trouble::Twice);
    }
    Ok(fact)
}

/// A formula over listed facts. Of its facts the lowest trouble counts, wherever it stands.
pub fn formula(depot: &Depot, text: &[u8]) -> Result<Formula<usize>, Trouble> {
    let formula = formulas::parse(text).ok_or(Trouble::NotItsForm)?;
    if formula.depth() > MOST_DEPTH {
        return Err(Trouble::NotItsForm);
    }
    let troubles = formula.facts().into_iter().filter_map(|fact| listed_fact(depot, fact).err());
    match troubles.min() {
        Some(trouble) => Err(trouble),
        None => Ok(formula.map(&|fact| depot.number_of_fact(fact).unwrap_or(0))),
    }
}

const MOST_IN_A_LIST: usize = 8;

/// Settings or strikes: `-`, or 1 to 8 listed facts parted by commas, none twice.
pub fn fact_list(depot: &Depot, text: &[u8]) -> Result<Vec<usize>, Trouble> {
    if text == b"-" {
        return Ok(Vec::new());
    }
    let parts: Vec<&[u8]> = text.split(|&byte| byte == b',').collect();
    if parts.len() > MOST_IN_A_LIST {
        return Err(Trouble::NotItsForm);
    }
    let readings: Vec<Result<usize, Trouble>> = parts.iter().map(|part| listed_fact(depot, part)).collect();
    if let Some(trouble) = readings.iter().filter_map(|reading| reading.err()).min() {
        return Err(trouble);
    }
    let numbers: Vec<usize> = readings.into_iter().flatten().collect();
    let twice = (0..numbers.len()).any(|later| numbers[..later].contains(&numbers[later]));
    if twice {
        Err(Trouble::Twice)
    } else {
        Ok(numbers)
    }
}
