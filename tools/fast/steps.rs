//! What a step does, and what is wrong with it.

use super::depot::{Depot, Effect, Move};
use super::facts::bits;
use super::formulas::After;
use super::plan_sheet::Step;
use super::refusals::{EffectAt, Reason};
use super::sets::Sets;

/// A move at its place in a step: which of its parts are true at the start, and what its fired effects do in all.
struct Placed<'d> {
    listed: &'d Move,
    truths: u32,
    set: u128,
    added: u128,
    removed: u128,
}

impl Placed<'_> {
    fn is_true(&self, part: usize) -> bool {
        self.truths >> part & 1 == 1
    }
}

/// The facts after a step, if it is accepted.
pub fn judge(depot: &Depot, standing: u128, step: &Step) -> Result<u128, Reason> {
    let mut placed = Vec::with_capacity(8);
    for (number, place) in step.moves().zip(1..) {
        let listed = &depot.moves[number];
        if !depot.formulas.is_true(depot.formulas.get(listed.need), standing) {
            return Err(Reason::NeedFalse { place });
        }
        placed.push(fire(depot, standing, listed));
    }
    let all = |of: fn(&Placed) -> u128| placed.iter().fold(0, |sum, move_at| sum | of(move_at));
    let (added, removed) = (all(|move_at| move_at.added), all(|move_at| move_at.removed));
    if all(|move_at| move_at.set) & removed != 0 {
        if let Some(reason) = contradiction(depot, &placed) {
            return Err(reason);
        }
    }
    match disturbance(depot, standing, &placed) {
        Some(reason) => Err(reason),
        None => Ok(standing & !removed | added),
    }
}

fn fire<'d>(depot: &'d Depot, standing: u128, listed: &'d Move) -> Placed<'d> {
    let mut placed = Placed { listed, truths: 1, set: 0, added: 0, removed: 0 };
    for (index, effect) in depot.effects_of(listed).iter().enumerate() {
        if depot.formulas.is_true(depot.formulas.get(listed.need + 1 + index), standing) {
            placed.truths |= 2 << index;
            placed.set |= effect.set;
            placed.added |= effect.added;
            placed.removed |= effect.removed;
        }
    }
    placed
}

/// A fired effect sets a fact that a fired strike removes: the lowest setting, and for it the lowest strike.
fn contradiction(depot: &Depot, placed: &[Placed]) -> Option<Reason> {
    let removed = placed.iter().fold(0, |sum, move_at| sum | move_at.removed);
    let (setting, set) = first_fired(depot, placed, |move_at| move_at.set & removed, |effect| effect.set & removed)?;
    let (strike, _) = first_fired(depot, placed, |move_at| move_at.removed & set, |effect| effect.removed & set)?;
    Some(Reason::Contradictory { setting, strike })
}

/// The lowest fired effect that shares some facts with others, and what it shares; `of_move` is asked first.
fn first_fired(
    depot: &Depot,
    placed: &[Placed],
    of_move: impl Fn(&Placed) -> u128,
    of_effect: impl Fn(&Effect) -> u128,
) -> Option<(EffectAt, u128)> {
    let (move_at, place) = placed.iter().zip(1..).find(|(move_at, _)| of_move(move_at) != 0)?;
    let fired = depot.effects_of(move_at.listed).iter().zip(1..).filter(|&(_, effect)| move_at.is_true(effect));
    let mut shared = fired.map(|(effect, number)| (EffectAt { place, effect: number }, of_effect(effect)));
    shared.find(|&(_, facts)| facts != 0)
}

/// The lowest set, then the lowest place outside it, then the lowest part that reads otherwise after the set.
fn disturbance(depot: &Depot, standing: u128, placed: &[Placed]) -> Option<Reason> {
    let after = after_sets(standing, placed);
    if after.changed == 0 {
        return None;
    }
    let sets = Sets::of_places(placed.len());
    let mut lowest = None;
    for (place, move_at) in placed.iter().enumerate() {
        let outside = sets & !Sets::with(place);
        for part in 0..=move_at.listed.effects {
            let formula = depot.formulas.get(move_at.listed.need + part);
            let otherwise = depot.formulas.otherwise(formula, standing, move_at.is_true(part), &after);
            let Some(set) = (otherwise & outside).lowest() else { continue };
            if lowest.is_none_or(|(least, _, _)| set < least) {
                lowest = Some((set, place + 1, part));
            }
        }
    }
    lowest.map(|(set, place, part)| Reason::Disturbed { set, place, part })
}

/// Without contradiction no fact is both added and removed, so only facts that did not stand come to stand, and a fact that
/// stood goes with each move that removes it.
fn after_sets(standing: u128, placed: &[Placed]) -> After {
    let mut after = After { changed: 0, stands: [Sets::NONE; 128] };
    for (place, move_at) in placed.iter().enumerate() {
        let changes = move_at.added & !standing | move_at.removed & standing;
        after.changed |= changes;
        for fact in bits(changes) {
            after.stands[fact] = after.stands[fact] | Sets::with(place);
        }
    }
    for fact in bits(after.changed & standing) {
        after.stands[fact] = !after.stands[fact];
    }
    after
}
