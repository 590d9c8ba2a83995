//! How a depot sheet is judged, line after line.

use super::depot::{Depot, Effect, Move};
use super::facts::{Facts, Kind};
use super::lines::{lines, Line};
use super::names::{name, Table};
use super::refusals::{Fault, Reason, Sheet, Trouble};

const MOST_BYTES: usize = 32_768;
const MOST_ZONES: usize = 12;
const MOST_MATTERS: usize = 64;
const MOST_FACTS: usize = 128;
const MOST_MOVES: usize = 64;
const MOST_EFFECTS_OF_A_MOVE: usize = 16;
const MOST_EFFECTS: usize = 256;
const MOST_SIZE: usize = 1_024;
const MOST_IN_A_LIST: usize = 8;
const MOST_FIELDS: usize = 4;

/// The letters in their order.
#[derive(Clone, Copy, PartialEq, Eq, PartialOrd, Ord)]
enum Letter {
    Kind,
    Zone,
    Matter,
    Fact,
    Start,
    Move,
    Effect,
    Goal,
}

impl Letter {
    fn of(field: &[u8]) -> Option<Letter> {
        match field {
            b"K" => Some(Letter::Kind),
            b"Z" => Some(Letter::Zone),
            b"P" => Some(Letter::Matter),
            b"F" => Some(Letter::Fact),
            b"I" => Some(Letter::Start),
            b"M" => Some(Letter::Move),
            b"E" => Some(Letter::Effect),
            b"G" => Some(Letter::Goal),
            _ => None,
        }
    }

    fn may_come(self, above: Option<Letter>, kind: Kind) -> bool {
        let Some(above) = above else { return self == Letter::Kind };
        match self {
            Letter::Kind => false,
            Letter::Zone => kind == Kind::Sight && above <= Letter::Zone,
            Letter::Matter | Letter::Fact | Letter::Start => above <= self,
            Letter::Move => above <= Letter::Effect,
            Letter::Effect => above == Letter::Move || above == Letter::Effect,
            Letter::Goal => above != Letter::Goal,
        }
    }

    fn fields(self) -> usize {
        match self {
            Letter::Move => 3,
            Letter::Effect => 4,
            _ => 2,
        }
    }
}

pub fn read(sheet: &[u8]) -> Result<Depot<'_>, Fault> {
    let fault = |line, reason| Fault { sheet: Sheet::Depot, line, reason };
    if sheet.len() > MOST_BYTES {
        return Err(fault(0, Reason::TooLarge));
    }
    let mut depot = Depot::new();
    let (mut above, mut count) = (None, 0);
    for line in lines(sheet) {
        count += 1;
        above = Some(add_line(&mut depot, above, line).map_err(|reason| fault(count, reason))?);
    }
    if above != Some(Letter::Goal) {
        return Err(fault(count, Reason::NoGoal));
    }
    depot.follow_carrying();
    Ok(depot)
}

fn add_line<'a>(depot: &mut Depot<'a>, above: Option<Letter>, line: Line<'a>) -> Result<Letter, Reason> {
    if !line.is_legible() {
        return Err(Reason::Illegible);
    }
    let (fields, count) = line.fields::<MOST_FIELDS>();
    let [first, one, two, three] = fields;
    let letter = Letter::of(first).filter(|letter| letter.may_come(above, depot.facts.kind));
    let letter = letter.ok_or(Reason::WrongLetter)?;
    if count != letter.fields() {
        return Err(Reason::FieldCount);
    }
    match letter {
        Letter::Kind => depot.facts.kind = kind(one)?,
        Letter::Zone => add_name(&mut depot.facts.zones, one, MOST_ZONES)?,
        Letter::Matter => add_name(&mut depot.facts.matters, one, MOST_MATTERS)?,
        Letter::Fact => add_fact(&mut depot.facts, one)?,
        Letter::Start => add_start(depot, one)?,
        Letter::Move => add_move(depot, one, two)?,
        Letter::Effect => add_effect(depot, one, two, three)?,
        Letter::Goal => {
            depot.formulas.read(&depot.facts, one).map_err(|trouble| trouble.at(2))?;
            room_if(depot.formulas.sizes() <= MOST_SIZE)?;
        }
    }
    Ok(letter)
}

fn room_if(is_room: bool) -> Result<(), Reason> {
    if is_room {
        Ok(())
    } else {
        Err(Reason::Full)
    }
}

fn kind(word: &[u8]) -> Result<Kind, Reason> {
    match word {
        b"plain" => Ok(Kind::Plain),
        b"sight" => Ok(Kind::Sight),
        _ => Err(Trouble::NotItsForm.at(2)),
    }
}

fn new_name(table: &Table, text: &[u8]) -> Result<u64, Trouble> {
    let name = name(text).ok_or(Trouble::NotItsForm)?;
    match table.find(name) {
        Some(_) => Err(Trouble::Twice),
        None => Ok(name),
    }
}

fn add_name(table: &mut Table, text: &[u8], most: usize) -> Result<(), Reason> {
    let name = new_name(table, text).map_err(|trouble| trouble.at(2))?;
    room_if(table.len() < most)?;
    table.add(name);
    Ok(())
}

fn add_fact<'a>(facts: &mut Facts<'a>, text: &'a [u8]) -> Result<(), Reason> {
    let fact = facts.read(text).map_err(|trouble| trouble.at(2))?;
    if facts.number(fact).is_some() {
        return Err(Trouble::Twice.at(2));
    }
    if fact.is_always_true {
        return Err(Trouble::AlwaysTrue.at(2));
    }
    room_if(facts.texts.len() < MOST_FACTS)?;
    facts.add(text, fact);
    Ok(())
}

fn add_start(depot: &mut Depot, text: &[u8]) -> Result<(), Reason> {
    let fact = depot.facts.listed(text).map_err(|trouble| trouble.at(2))?;
    if depot.started >> fact & 1 == 1 {
        return Err(Trouble::Twice.at(2));
    }
    depot.started |= 1 << fact;
    Ok(())
}

/// The lowest of what is wrong with some fields, which come in their order from field 2 on.
fn lowest<const FIELDS: usize>(troubles: [Option<Trouble>; FIELDS]) -> Result<(), Reason> {
    let found = troubles.iter().zip(2..).filter_map(|(trouble, field)| trouble.map(|trouble| (trouble, field)));
    match found.min() {
        Some((trouble, field)) => Err(trouble.at(field)),
        None => Ok(()),
    }
}

fn add_move(depot: &mut Depot, text: &[u8], need: &[u8]) -> Result<(), Reason> {
    let name = new_name(&depot.names, text);
    let number = depot.formulas.len();
    let need = depot.formulas.read(&depot.facts, need);
    lowest([name.err(), need.err()])?;
    room_if(depot.moves.len() < MOST_MOVES && depot.formulas.sizes() <= MOST_SIZE)?;
    if let Ok(name) = name {
        depot.names.add(name);
    }
    depot.moves.push(Move { need: number, first_effect: depot.effects.len(), effects: 0 });
    Ok(())
}

fn add_effect(depot: &mut Depot, condition: &[u8], settings: &[u8], strikes: &[u8]) -> Result<(), Reason> {
    let condition = depot.formulas.read(&depot.facts, condition);
    let (settings, strikes) = (fact_list(&depot.facts, settings), fact_list(&depot.facts, strikes));
    lowest([condition.err(), settings.err(), strikes.err()])?;
    let in_all = depot.effects.len();
    let Some(above) = depot.moves.last_mut() else { return Err(Reason::WrongLetter) };
    room_if(above.effects < MOST_EFFECTS_OF_A_MOVE && in_all < MOST_EFFECTS && depot.formulas.sizes() <= MOST_SIZE)?;
    above.effects += 1;
    let (set, struck) = (settings.unwrap_or_default(), strikes.unwrap_or_default());
    depot.effects.push(Effect { set, struck, ..Effect::default() });
    Ok(())
}

/// The facts of a list, or the lowest trouble with it.
fn fact_list(facts: &Facts, text: &[u8]) -> Result<u128, Trouble> {
    if text == b"-" {
        return Ok(0);
    }
    let (mut set, mut count, mut trouble) = (0, 0, None);
    for part in text.split(|&byte| byte == b',') {
        count += 1;
        match facts.listed(part) {
            Ok(fact) if set >> fact & 1 == 1 => trouble = trouble.or(Some(Trouble::Twice)),
            Ok(fact) => set |= 1u128 << fact,
            Err(Trouble::NotItsForm) => return Err(Trouble::NotItsForm),
            Err(_) => trouble = Some(Trouble::NotListed),
        }
    }
    if count > MOST_IN_A_LIST {
        return Err(Trouble::NotItsForm);
    }
    trouble.map_or(Ok(set), Err)
}
