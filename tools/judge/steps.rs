//! What a step does, and what is wrong with it.

use super::depot::{Depot, Effect, Move};
use super::refusals::{EffectAt, Reason};

pub const MOST_NUMBERS: usize = 128;
const MOST_MOVES: usize = 8;

/// Which facts stand, for every number from 1 to 128.
#[derive(Clone, PartialEq, Eq)]
pub struct Standing([bool; MOST_NUMBERS]);

impl Standing {
    pub fn nothing() -> Standing {
        Standing([false; MOST_NUMBERS])
    }

    pub fn stands(&self, fact: usize) -> bool {
        fact.checked_sub(1).and_then(|index| self.0.get(index)).is_some_and(|&stands| stands)
    }

    pub fn set(&mut self, fact: usize, stands: bool) {
        if let Some(mark) = fact.checked_sub(1).and_then(|index| self.0.get_mut(index)) {
            *mark = stands;
        }
    }

    /// The fact comes to stand, and every listed fact that it carries.
    pub fn add(&mut self, depot: &Depot, fact: usize) {
        depot.fact_numbers().filter(|&listed| depot.carries(fact, listed)).for_each(|listed| self.set(listed, true));
    }

    /// The fact goes, and every listed fact that carries it.
    pub fn remove(&mut self, depot: &Depot, fact: usize) {
        depot.fact_numbers().filter(|&listed| depot.carries(listed, fact)).for_each(|listed| self.set(listed, false));
    }
}

pub fn is_true(depot: &Depot, standing: &Standing, formula: usize) -> bool {
    depot.formula_with(formula).is_some_and(|formula| formula.is_true(&|&fact| standing.stands(fact)))
}

/// The effects of a move that fire, each with its number within the move.
fn fired<'a>(depot: &Depot, standing: &Standing, done: &'a Move) -> Vec<(usize, &'a Effect)> {
    (1..).zip(&done.effects).filter(|(_, effect)| is_true(depot, standing, effect.condition)).collect()
}

/// The facts after some moves, whose effects are judged at the start: first all strikes, then all settings.
pub fn after(depot: &Depot, start: &Standing, moves: &[&Move]) -> Standing {
    let effects: Vec<&Effect> =
        moves.iter().flat_map(|done| fired(depot, start, done)).map(|(_, effect)| effect).collect();
    let mut standing = start.clone();
    for strike in effects.iter().flat_map(|effect| &effect.strikes) {
        standing.remove(depot, *strike);
    }
    for setting in effects.iter().flat_map(|effect| &effect.settings) {
        standing.add(depot, *setting);
    }
    standing
}

/// The moves of a step, or the lowest reason why it cannot be done.
pub fn judge<'a>(depot: &'a Depot, start: &Standing, numbers: &[usize]) -> Result<Vec<&'a Move>, Reason> {
    if numbers.is_empty() || numbers.len() > MOST_MOVES {
        return Err(Reason::MoveCount);
    }
    let listed: Vec<Option<&Move>> = numbers.iter().map(|&number| depot.move_with(number)).collect();
    if let Some(index) = listed.iter().position(Option::is_none) {
        return Err(Reason::NoSuchMove { place: index + 1 });
    }
    if let Some(index) = (0..numbers.len()).find(|&later| numbers[..later].contains(&numbers[later])) {
        return Err(Reason::SameMove { place: index + 1 });
    }
    let moves: Vec<&Move> = listed.into_iter().flatten().collect();
    if let Some(index) = moves.iter().position(|done| !is_true(depot, start, done.need)) {
        return Err(Reason::NeedFalse { place: index + 1 });
    }
    match contradiction(depot, start, &moves).or_else(|| disturbance(depot, start, &moves)) {
        Some(reason) => Err(reason),
        None => Ok(moves),
    }
}

/// The lowest setting, and for it the lowest strike, such that the setting carries the strike.
fn contradiction(depot: &Depot, start: &Standing, moves: &[&Move]) -> Option<Reason> {
    let fired_at: Vec<(EffectAt, &Effect)> = (1..)
        .zip(moves)
        .flat_map(|(place, done)| {
            fired(depot, start, done).into_iter().map(move |(effect, which)| (EffectAt { place, effect }, which))
        })
        .collect();
    let pairs = fired_at.iter().flat_map(|setting| fired_at.iter().map(move |strike| (setting, strike)));
    pairs
        .filter(|((_, setting), (_, strike))| contradict(depot, setting, strike))
        .map(|((setting, _), (strike, _))| Reason::Contradictory { setting: *setting, strike: *strike })
        .next()
}

fn contradict(depot: &Depot, setting: &Effect, strike: &Effect) -> bool {
    setting.settings.iter().any(|&set| strike.strikes.iter().any(|&struck| depot.carries(set, struck)))
}

/// The formula numbers of a move's parts: its need, which is part 0, and the conditions of its effects.
fn parts(done: &Move) -> Vec<usize> {
    std::iter::once(done.need).chain(done.effects.iter().map(|effect| effect.condition)).collect()
}

/// Whether a place is in a set, whose number is the sum of 2^(place - 1) over its places.
fn is_in(set: usize, place: usize) -> bool {
    set >> (place - 1) & 1 == 1
}

/// Every set of places is tried in the order of their numbers, then every place outside it, then every part.
fn disturbance(depot: &Depot, start: &Standing, moves: &[&Move]) -> Option<Reason> {
    (1..1 << moves.len()).find_map(|set| {
        let chosen: Vec<&Move> =
            (1..).zip(moves).filter(|&(place, _)| is_in(set, place)).map(|(_, done)| *done).collect();
        let then = after(depot, start, &chosen);
        let outside = (1..).zip(moves).filter(|&(place, _)| !is_in(set, place));
        outside.into_iter().find_map(|(place, done)| {
            let reads_otherwise = |&formula: &usize| is_true(depot, start, formula) != is_true(depot, &then, formula);
            let part = parts(done).iter().position(reads_otherwise)?;
            Some(Reason::Disturbed { set, place, part })
        })
    })
}
