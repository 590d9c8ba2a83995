//! Lists of calls for a depot: wrong numbers, repeats and too many moves among them, and the test of a disturbed step.

use super::families;
use super::random::Random;
use super::steps::{accepted, aimed, any, Aim};
use crate::judge::depot::Depot;
use crate::judge::refusals::Reason;
use crate::judge::walkthrough::{Call, Walkthrough};

pub struct Calls {
    pub depot: Vec<u8>,
    pub calls: Vec<Call>,
}

/// A depot sheet and the calls on it, fixed by a seed. The depot that the sheet gives is handed in by `read`.
pub fn calls(seed: u64, read: impl Fn(&[u8]) -> Option<Depot>) -> Option<Calls> {
    let mut random = Random::from_seed(seed.wrapping_mul(0x9fb2_1c65_1e98_df25));
    let random = &mut random;
    let sheet = families::any_depot(random).sheet();
    let depot = read(&sheet)?;
    let mut walkthrough = Walkthrough::make(Some(&depot)).ok()?;
    let mut calls = Vec::new();
    for _ in 0..random.between(0, 30) {
        for call in some_calls(random, &depot, &walkthrough) {
            let _refused_or_not = walkthrough.answer(Some(&depot), &call);
            calls.push(call);
        }
    }
    if random.percent(70) {
        calls.extend(depot.fact_numbers().map(Call::Look));
    }
    Some(Calls { depot: sheet, calls })
}

/// One call, or a step that is refused as disturbed and the calls that show it.
fn some_calls(random: &mut Random, depot: &Depot, walkthrough: &Walkthrough) -> Vec<Call> {
    match random.below(20) {
        0..=4 => accepted(random, depot, walkthrough).map(Call::Step).into_iter().collect(),
        5..=7 => {
            let aim = Aim::any(random);
            aimed(random, depot, walkthrough, aim).map(Call::Step).into_iter().collect()
        }
        8..=9 => shown_disturbance(random, depot, walkthrough),
        10 => vec![Call::Step(any(random, depot))],
        11..=12 => vec![Call::Step(wrong_moves(random, depot))],
        13..=15 => vec![Call::Look(number(random, depot.facts.len()))],
        _ => vec![Call::Truth(number(random, depot.formulas.len()))],
    }
}

/// A number up to `most`, now and then 0, one past the last, or far away.
fn number(random: &mut Random, most: usize) -> usize {
    match random.below(20) {
        0 => 0,
        1 => most + 1,
        2 => most + random.between(2, 70_000),
        _ => random.between(1, most),
    }
}

/// None to ten numbers, which may repeat and may not be listed.
fn wrong_moves(random: &mut Random, depot: &Depot) -> Vec<usize> {
    (0..random.below(11)).map(|_| number(random, depot.moves.len())).collect()
}

/// A disturbed step, the moves of the set that is named, one by one in any order, and the truth of the named part.
fn shown_disturbance(random: &mut Random, depot: &Depot, walkthrough: &Walkthrough) -> Vec<Call> {
    let Some(step) = aimed(random, depot, walkthrough, Aim::Disturbed) else { return Vec::new() };
    let Err(Reason::Disturbed { set, place, part }) = walkthrough.clone().step(Some(depot), &step) else {
        return Vec::new();
    };
    let mut chosen: Vec<usize> =
        (0..step.len()).filter(|index| set >> index & 1 == 1).filter_map(|index| step.get(index).copied()).collect();
    random.shuffle(&mut chosen);
    let disturbed = place.checked_sub(1).and_then(|index| step.get(index)).copied();
    let formula = disturbed.and_then(|number| depot.move_with(number)).map_or(0, |listed| listed.need + part);
    let ask = Call::Truth(formula);
    let singles = chosen.into_iter().map(|number| Call::Step(vec![number]));
    vec![Call::Step(step), ask.clone()].into_iter().chain(singles).chain(Some(ask)).collect()
}
