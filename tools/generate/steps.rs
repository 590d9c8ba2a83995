//! Steps that are likely to be accepted, or to be refused for a reason that is wanted.

use super::random::Random;
use crate::judge::depot::Depot;
use crate::judge::refusals::Reason;
use crate::judge::walkthrough::Walkthrough;

const MOST_MOVES: usize = 8;

/// The outcome that a plan is to come to.
#[derive(Clone, Copy, PartialEq, Eq)]
pub enum Aim {
    Accepted,
    NeedFalse,
    Contradictory,
    Disturbed,
    GoalFalse,
}

impl Aim {
    pub fn any(random: &mut Random) -> Aim {
        match random.below(10) {
            0..=2 => Aim::Accepted,
            3 => Aim::NeedFalse,
            4..=5 => Aim::Contradictory,
            6..=8 => Aim::Disturbed,
            _ => Aim::GoalFalse,
        }
    }

    fn is_met_by(self, reason: Reason) -> bool {
        match self {
            Aim::NeedFalse => matches!(reason, Reason::NeedFalse { .. }),
            Aim::Contradictory => matches!(reason, Reason::Contradictory { .. }),
            Aim::Disturbed => matches!(reason, Reason::Disturbed { .. }),
            Aim::Accepted | Aim::GoalFalse => false,
        }
    }
}

fn outcome(depot: &Depot, walkthrough: &Walkthrough, moves: &[usize]) -> Result<usize, Reason> {
    walkthrough.clone().step(Some(depot), moves)
}

/// Moves added one after the other, each kept where the step is still accepted. Where one that is added brings the
/// refusal that is wanted, the step with it.
fn grow(random: &mut Random, depot: &Depot, walkthrough: &Walkthrough, aim: Aim) -> (Vec<usize>, bool) {
    let mut numbers: Vec<usize> = (1..=depot.moves.len()).collect();
    random.shuffle(&mut numbers);
    let most = if random.percent(50) { random.between(1, 3) } else { random.between(3, MOST_MOVES) };
    let mut step = Vec::new();
    for number in numbers {
        if step.len() >= most {
            break;
        }
        step.push(number);
        match outcome(depot, walkthrough, &step) {
            Ok(_) => {}
            Err(reason) if aim.is_met_by(reason) => return (step, true),
            Err(_) => {
                step.pop();
            }
        }
    }
    (step, false)
}

/// A step that is accepted, if there is a move that is.
pub fn accepted(random: &mut Random, depot: &Depot, walkthrough: &Walkthrough) -> Option<Vec<usize>> {
    let (step, _) = grow(random, depot, walkthrough, Aim::Accepted);
    (!step.is_empty()).then_some(step)
}

/// A step that comes to what is wanted, if some tries find one. Its moves are shuffled, so that details differ.
/// Half of those that are disturbed are shuffled so that the set that is named has many places.
pub fn aimed(random: &mut Random, depot: &Depot, walkthrough: &Walkthrough, aim: Aim) -> Option<Vec<usize>> {
    (0..12).find_map(|_| {
        let (mut step, found) = grow(random, depot, walkthrough, aim);
        if found && random.percent(50) {
            add_others(random, depot, walkthrough, aim, &mut step);
        }
        random.shuffle(&mut step);
        if found && aim == Aim::Disturbed && random.percent(50) {
            step = with_most_places(random, depot, walkthrough, step);
        }
        found.then_some(step)
    })
}

/// Of some orders of a step's moves the one in which most places are in the set that a refusal names.
fn with_most_places(random: &mut Random, depot: &Depot, walkthrough: &Walkthrough, mut step: Vec<usize>) -> Vec<usize> {
    let places = |moves: &[usize]| match outcome(depot, walkthrough, moves) {
        Err(Reason::Disturbed { set, .. }) => set.count_ones(),
        _ => 0,
    };
    let mut best = step.clone();
    for _ in 0..10 {
        random.shuffle(&mut step);
        if places(&step) > places(&best) {
            best = step.clone();
        }
    }
    best
}

/// Adds moves with which the step still comes to what is wanted, so that it does so for several reasons.
fn add_others(random: &mut Random, depot: &Depot, walkthrough: &Walkthrough, aim: Aim, step: &mut Vec<usize>) {
    let mut others: Vec<usize> = (1..=depot.moves.len()).filter(|number| !step.contains(number)).collect();
    random.shuffle(&mut others);
    for number in others {
        if step.len() >= MOST_MOVES {
            return;
        }
        step.push(number);
        if !outcome(depot, walkthrough, step).is_err_and(|reason| aim.is_met_by(reason)) {
            step.pop();
        }
    }
}

/// Any moves that are listed, none twice; at most eight.
pub fn any(random: &mut Random, depot: &Depot) -> Vec<usize> {
    let numbers: Vec<usize> = (1..=depot.moves.len()).collect();
    random.some_of(&numbers, MOST_MOVES)
}
