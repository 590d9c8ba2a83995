//! Plans for a draft of a depot: most come to an outcome that was chosen before, some are spoilt on purpose.

use super::draft::{name, short_formula, Draft};
use super::random::Random;
use super::steps::{accepted, aimed, any, Aim};
use crate::judge::depot::Depot;
use crate::judge::depot_sheet;
use crate::judge::walkthrough::Walkthrough;

/// The names of the moves of each step.
pub type Plan = Vec<Vec<String>>;

pub fn sheet(plan: &Plan) -> Vec<u8> {
    plan.iter().flat_map(|step| (step.join("\t") + "\n").into_bytes()).collect()
}

/// A plan for the draft, whose goal may be changed so that the plan comes to what is wanted.
pub fn plan(random: &mut Random, draft: &mut Draft) -> Plan {
    let depot = depot_sheet::read(&draft.sheet()).ok();
    let walkthrough = Walkthrough::make(depot.as_ref()).ok();
    match (depot, walkthrough) {
        (Some(depot), Some(walkthrough)) => led_plan(random, draft, &depot, walkthrough),
        _ => (0..random.below(4)).map(|_| some_names(random, draft)).collect(),
    }
}

fn some_names(random: &mut Random, draft: &Draft) -> Vec<String> {
    let first = draft.moves.first().map_or("move".to_string(), |first| first.name.clone());
    let names: Vec<String> = draft.moves.iter().skip(1).map(|listed| listed.name.clone()).collect();
    std::iter::once(first).chain(random.some_of(&names, 7)).collect()
}

fn led_plan(random: &mut Random, draft: &mut Draft, depot: &Depot, mut walkthrough: Walkthrough) -> Plan {
    let aim = Aim::any(random);
    let mut steps = Vec::new();
    for _ in 0..step_count(random) {
        let Some(step) = accepted(random, depot, &walkthrough) else { break };
        if walkthrough.step(Some(depot), &step).is_ok() {
            steps.push(step);
        }
    }
    match aim {
        Aim::Accepted => set_goal(random, draft, &walkthrough, true),
        Aim::GoalFalse => set_goal(random, draft, &walkthrough, false),
        _ => steps.extend(refused_step(random, depot, &walkthrough, aim)),
    }
    if random.percent(10) {
        steps.push(any(random, depot));
    }
    steps.retain(|step| !step.is_empty());
    let names = |step: Vec<usize>| step.into_iter().filter_map(|number| move_name(draft, number)).collect();
    steps.into_iter().map(names).collect()
}

/// A step that is refused as is wanted, or, where none is found, for another reason.
fn refused_step(random: &mut Random, depot: &Depot, walkthrough: &Walkthrough, aim: Aim) -> Option<Vec<usize>> {
    let mut others = [Aim::NeedFalse, Aim::Contradictory, Aim::Disturbed];
    random.shuffle(&mut others);
    std::iter::once(aim).chain(others).find_map(|aim| aimed(random, depot, walkthrough, aim))
}

fn move_name(draft: &Draft, number: usize) -> Option<String> {
    number.checked_sub(1).and_then(|index| draft.moves.get(index)).map(|listed| listed.name.clone())
}

fn step_count(random: &mut Random) -> usize {
    match random.below(100) {
        0..=9 => 0,
        10..=74 => random.between(1, 5),
        75..=94 => random.between(6, 20),
        95..=97 => random.between(21, 62),
        _ => 64,
    }
}

/// A goal that is true, or false, where the walkthrough stands. It goes by the same facts as before.
fn set_goal(random: &mut Random, draft: &mut Draft, walkthrough: &Walkthrough, wanted: bool) {
    let goal = short_formula(random, &draft.facts);
    let trial = Draft { goal: goal.clone(), ..draft.clone() };
    let depot = depot_sheet::read(&trial.sheet()).ok();
    let truth = depot.and_then(|depot| walkthrough.truth(Some(&depot), depot.goal()).ok());
    draft.goal = match truth {
        Some(truth) if truth == wanted => goal,
        Some(_) => format!("!{goal}"),
        None => "()".to_string(),
    };
}

/// Spoils a plan in one of the ways that its reader is to find.
pub fn spoil(random: &mut Random, plan: &mut Plan) {
    match random.below(7) {
        0 => add_steps(random, plan),
        1..=2 => replace_a_name(random, plan),
        3..=4 => repeat_a_name(random, plan),
        5 => lengthen_a_step(random, plan),
        _ => {
            let place = random.below(plan.len() + 1);
            plan.insert(place, vec![String::new()]);
        }
    }
}

/// So many steps that their limit is reached, or passed by one or two.
fn add_steps(random: &mut Random, plan: &mut Plan) {
    let steps = plan.clone();
    let most = random.between(63, 66);
    while plan.len() < most {
        let Some(step) = random.pick(&steps).cloned() else { return };
        plan.push(step);
    }
    if random.percent(40) {
        if let Some(name) = plan.last_mut().and_then(|step| step.last_mut()) {
            *name = odd_name(random);
        }
    }
}

/// A name that is none, or that is likely not to be listed.
fn odd_name(random: &mut Random) -> String {
    let odd = ["", "all", "A", "a.b", "ninebytes", "()"];
    let length = random.between(1, 8);
    let unlisted = name(random, length);
    random.pick(&odd).filter(|_| random.percent(70)).map_or(unlisted, |odd| odd.to_string())
}

fn replace_a_name(random: &mut Random, plan: &mut Plan) {
    let line = random.below(plan.len());
    let Some(step) = plan.get_mut(line) else { return };
    let place = random.below(step.len());
    if let Some(old) = step.get_mut(place) {
        *old = odd_name(random);
    }
}

fn repeat_a_name(random: &mut Random, plan: &mut Plan) {
    let line = random.below(plan.len());
    let Some(step) = plan.get_mut(line) else { return };
    for _ in 0..random.between(1, 2) {
        let place = random.below(step.len() + 1);
        if let Some(again) = random.pick(step).cloned() {
            step.insert(place, again);
        }
    }
}

/// Eight, nine or ten names in a step, whatever they are.
fn lengthen_a_step(random: &mut Random, plan: &mut Plan) {
    let names: Vec<String> = plan.concat();
    let line = random.below(plan.len());
    let most = random.between(8, 10);
    let Some(step) = plan.get_mut(line) else { return };
    while step.len() < most {
        let listed = random.pick(&names).cloned();
        let new = listed.filter(|name| !step.contains(name)).unwrap_or_else(|| odd_name(random));
        step.push(new);
    }
}
