//! How a depot sheet is judged, line after line.

use super::depot::{Depot, Effect, Move};
use super::fields::{self, Trouble};
use super::formulas::Formula;
use super::kinds::{Kind, Text};
use super::lines::{lines, Line};
use super::refusals::{Fault, Reason, Sheet};

const MOST_BYTES: usize = 32_768;
const MOST_ZONES: usize = 12;
const MOST_MATTERS: usize = 64;
const MOST_FACTS: usize = 128;
const MOST_MOVES: usize = 64;
const MOST_EFFECTS_OF_A_MOVE: usize = 16;
const MOST_EFFECTS: usize = 256;
const MOST_SIZE: usize = 1_024;

/// The letters in their order.
#[derive(Clone, Copy, PartialEq, Eq, PartialOrd, Ord)]
enum Letter {
    K,
    Z,
    P,
    F,
    I,
    M,
    E,
    G,
}

impl Letter {
    fn of(field: &[u8]) -> Option<Letter> {
        match field {
            b"K" => Some(Letter::K),
            b"Z" => Some(Letter::Z),
            b"P" => Some(Letter::P),
            b"F" => Some(Letter::F),
            b"I" => Some(Letter::I),
            b"M" => Some(Letter::M),
            b"E" => Some(Letter::E),
            b"G" => Some(Letter::G),
            _ => None,
        }
    }

    /// Whether the letter may come below a line with the letter `above`, or as the first of all.
    fn may_come(self, above: Option<Letter>, kind: Kind) -> bool {
        let Some(above) = above else { return self == Letter::K };
        match self {
            Letter::K => false,
            Letter::Z => kind == Kind::Sight && above <= Letter::Z,
            Letter::M => above <= Letter::M || above == Letter::E,
            Letter::E => above == Letter::M || above == Letter::E,
            Letter::G => above != Letter::G,
            Letter::P | Letter::F | Letter::I => above <= self,
        }
    }
}

/// What a line lists.
enum Entry {
    Kind(Kind),
    Zone(Text),
    Matter(Text),
    Fact(Text),
    Start(usize),
    Move(Text, Formula<usize>),
    Effect(Formula<usize>, Vec<usize>, Vec<usize>),
    Goal(Formula<usize>),
}

pub fn read(sheet: &[u8]) -> Result<Depot, Fault> {
    let fault = |line, reason| Fault::on(Sheet::Depot, line, reason);
    if sheet.len() > MOST_BYTES {
        return Err(fault(0, Reason::TooLarge));
    }
    let lines = lines(sheet);
    let mut depot = Depot::default();
    let mut above = None;
    for (number, line) in (1..).zip(&lines) {
        let letter = judge_letter(*line, above, depot.kind).map_err(|reason| fault(number, reason))?;
        let entry = judge_fields(&depot, letter, &line.fields()).map_err(|reason| fault(number, reason))?;
        if is_full(&depot, &entry) {
            return Err(fault(number, Reason::Full));
        }
        add(&mut depot, entry);
        above = Some(letter);
    }
    if above != Some(Letter::G) {
        return Err(fault(lines.len(), Reason::NoGoal));
    }
    depot.note_carrying();
    Ok(depot)
}

fn judge_letter(line: Line, above: Option<Letter>, kind: Kind) -> Result<Letter, Reason> {
    if !line.is_legible() {
        return Err(Reason::Illegible);
    }
    let letter = line.fields().first().and_then(|field| Letter::of(field));
    letter.filter(|letter| letter.may_come(above, kind)).ok_or(Reason::WrongLetter)
}

fn judge_fields(depot: &Depot, letter: Letter, line: &[&[u8]]) -> Result<Entry, Reason> {
    match (letter, line) {
        (Letter::K, [_, word]) => at(2, fields::kind(word)).map(Entry::Kind),
        (Letter::Z, [_, name]) => {
            let is_listed = depot.names.zones.iter().any(|zone| zone == name);
            at(2, fields::new_name(name, is_listed)).map(Entry::Zone)
        }
        (Letter::P, [_, name]) => {
            let is_listed = depot.names.matters.iter().any(|matter| matter == name);
            at(2, fields::new_name(name, is_listed)).map(Entry::Matter)
        }
        (Letter::F, [_, fact]) => at(2, fields::new_fact(depot, fact)).map(Entry::Fact),
        (Letter::I, [_, fact]) => at(2, fields::new_start(depot, fact)).map(Entry::Start),
        (Letter::M, [_, name, need]) => {
            let name = at(2, fields::new_name(name, depot.number_of_move(name).is_some()));
            let need = at(3, fields::formula(depot, need));
            both(name, need).map(|(name, need)| Entry::Move(name, need))
        }
        (Letter::E, [_, condition, settings, strikes]) => {
            let condition = at(2, fields::formula(depot, condition));
            let settings = at(3, fields::fact_list(depot, settings));
            let strikes = at(4, fields::fact_list(depot, strikes));
            let all = both(condition, both(settings, strikes));
            all.map(|(condition, (settings, strikes))| Entry::Effect(condition, settings, strikes))
        }
        (Letter::G, [_, goal]) => at(2, fields::formula(depot, goal)).map(Entry::Goal),
        _ => Err(Reason::FieldCount),
    }
}

fn at<T>(field: usize, reading: Result<T, Trouble>) -> Result<T, Reason> {
    reading.map_err(|trouble| trouble.at(field))
}

/// Both readings, or the lower of what is wrong with them.
fn both<A, B>(one: Result<A, Reason>, other: Result<B, Reason>) -> Result<(A, B), Reason> {
    match (one, other) {
        (Ok(one), Ok(other)) => Ok((one, other)),
        (Err(one), Err(other)) => Err(one.lower(other)),
        (Err(reason), _) | (_, Err(reason)) => Err(reason),
    }
}

/// Whether an entry would be one too many, or its formula too large with those above.
fn is_full(depot: &Depot, entry: &Entry) -> bool {
    let too_large = |formula: &Formula<usize>| depot.formula_sizes() + formula.size() > MOST_SIZE;
    match entry {
        Entry::Kind(_) | Entry::Start(_) => false,
        Entry::Zone(_) => depot.names.zones.len() >= MOST_ZONES,
        Entry::Matter(_) => depot.names.matters.len() >= MOST_MATTERS,
        Entry::Fact(_) => depot.facts.len() >= MOST_FACTS,
        Entry::Move(_, need) => depot.moves.len() >= MOST_MOVES || too_large(need),
        Entry::Effect(condition, _, _) => has_all_effects(depot) || too_large(condition),
        Entry::Goal(goal) => too_large(goal),
    }
}

fn has_all_effects(depot: &Depot) -> bool {
    let of_the_move = depot.moves.last().map_or(0, |above| above.effects.len());
    let in_all: usize = depot.moves.iter().map(|listed| listed.effects.len()).sum();
    of_the_move >= MOST_EFFECTS_OF_A_MOVE || in_all >= MOST_EFFECTS
}

fn add(depot: &mut Depot, entry: Entry) {
    match entry {
        Entry::Kind(kind) => depot.kind = kind,
        Entry::Zone(name) => depot.names.zones.push(name),
        Entry::Matter(name) => depot.names.matters.push(name),
        Entry::Fact(fact) => depot.facts.push(fact),
        Entry::Start(fact) => depot.started.push(fact),
        Entry::Move(name, need) => {
            depot.formulas.push(need);
            depot.moves.push(Move { name, need: depot.formulas.len(), effects: Vec::new() });
        }
        Entry::Effect(condition, settings, strikes) => {
            depot.formulas.push(condition);
            let effect = Effect { condition: depot.formulas.len(), settings, strikes };
            if let Some(above) = depot.moves.last_mut() {
                above.effects.push(effect);
            }
        }
        Entry::Goal(goal) => depot.formulas.push(goal),
    }
}
