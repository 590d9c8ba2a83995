//! Depots of several families: any facts and moves, moves that pass a word on, and moves that turn a fact round.

use super::draft::{names, short_formula, sight_fact, Draft, DraftEffect, DraftMove};
use super::random::Random;

pub fn any_depot(random: &mut Random) -> Draft {
    match random.below(100) {
        0..=24 => plain(random),
        25..=56 => sight(random),
        57..=68 => gossip(random),
        69..=77 => toggles(random),
        _ => many_conditions(random),
    }
}

fn plain(random: &mut Random) -> Draft {
    let count = random.between(1, 14);
    let matters = names(random, count);
    let facts = most_of(random, &matters);
    with_moves(random, Draft { kind: "plain", matters, facts, goal: "()".to_string(), ..Draft::default() })
}

fn sight(random: &mut Random) -> Draft {
    let (zone_count, matter_count) = (random.between(1, 4), random.between(1, 4));
    let zones = names(random, zone_count);
    let matters = names(random, matter_count);
    let mut facts: Vec<String> = Vec::new();
    for _ in 0..random.between(1, 30) {
        let watchers = if random.percent(80) { random.below(3) } else { random.between(3, 5) };
        let matter = random.pick(&matters).cloned().unwrap_or_default();
        let fact = sight_fact(random, &zones, &matter, watchers);
        if !facts.contains(&fact) {
            facts.push(fact);
        }
    }
    with_moves(random, Draft { kind: "sight", zones, matters, facts, goal: "()".to_string(), ..Draft::default() })
}

fn most_of(random: &mut Random, list: &[String]) -> Vec<String> {
    let mut some: Vec<String> = list.iter().filter(|_| random.percent(85)).cloned().collect();
    random.shuffle(&mut some);
    some
}

/// Starts some of the facts and adds moves over them.
fn with_moves(random: &mut Random, mut draft: Draft) -> Draft {
    let share = random.between(1, 70);
    draft.started = draft.facts.iter().filter(|_| random.percent(share)).cloned().collect();
    let count = random.between(1, 14);
    draft.moves = names(random, count).into_iter().map(|name| any_move(random, &draft, name)).collect();
    draft
}

fn any_move(random: &mut Random, draft: &Draft, name: String) -> DraftMove {
    let need = match random.below(10) {
        0..=4 => "()".to_string(),
        5..=7 => true_at_start(random, draft),
        _ => short_formula(random, &draft.facts),
    };
    let count = if random.percent(85) { random.below(4) } else { random.below(9) };
    let effects = (0..count).map(|_| any_effect(random, draft)).collect();
    DraftMove { name, need, effects }
}

/// A fact that is started, or `!` and one that is not. (One that is carried at the start may make it false.)
fn true_at_start(random: &mut Random, draft: &Draft) -> String {
    match random.pick(&draft.facts) {
        Some(fact) if draft.started.contains(fact) => fact.clone(),
        Some(fact) => format!("!{fact}"),
        None => "()".to_string(),
    }
}

fn any_effect(random: &mut Random, draft: &Draft) -> DraftEffect {
    let condition = match random.below(10) {
        0..=4 => "()".to_string(),
        5..=6 => true_at_start(random, draft),
        _ => short_formula(random, &draft.facts),
    };
    let (settings, strikes) = match random.below(10) {
        0..=3 => (2, 0),
        4..=6 => (0, 2),
        7 => (8, 0),
        _ => (3, 2),
    };
    let mut settings = random.some_of(&draft.facts, settings);
    let strikes = random.some_of(&draft.facts, strikes);
    settings.retain(|fact| !strikes.contains(fact) || random.percent(10));
    DraftEffect { condition, settings, strikes }
}

/// Zones that call each other two by two: if one sees the word, the other then sees it too.
fn gossip(random: &mut Random) -> Draft {
    let zone_count = random.between(2, 6);
    let zones = names(random, zone_count);
    let matters = names(random, 1);
    let sees = |zone: &String| format!("{zone}.{}", matters.concat());
    let facts: Vec<String> = zones.iter().map(sees).chain(matters.iter().cloned()).collect();
    let pairs: Vec<(usize, usize)> =
        (0..zones.len()).flat_map(|one| (one + 1..zones.len()).map(move |other| (one, other))).collect();
    let move_names = names(random, pairs.len());
    let telling = |from: usize, to: usize| DraftEffect {
        condition: facts[from].clone(),
        settings: vec![facts[to].clone()],
        strikes: Vec::new(),
    };
    let moves = move_names.into_iter().zip(pairs).map(|(name, (one, other))| DraftMove {
        name,
        need: "()".to_string(),
        effects: vec![telling(one, other), telling(other, one)],
    });
    let moves = moves.collect();
    let share = random.between(10, 90);
    let started = facts.iter().filter(|_| random.percent(share)).cloned().collect();
    Draft { kind: "sight", zones, matters, started, moves, goal: "()".to_string(), facts }
}

/// Moves that each turn a fact round, some of them the same one.
fn toggles(random: &mut Random) -> Draft {
    let matter_count = random.between(1, 9);
    let matters = names(random, matter_count);
    let move_count = random.between(1, 12);
    let mut moves = Vec::new();
    for name in names(random, move_count) {
        let fact = random.pick(&matters).cloned().unwrap_or_default();
        let off = DraftEffect { condition: fact.clone(), strikes: vec![fact.clone()], settings: Vec::new() };
        let on = DraftEffect { condition: format!("!{fact}"), settings: vec![fact], strikes: Vec::new() };
        moves.push(DraftMove { name, need: "()".to_string(), effects: vec![off, on] });
    }
    let started = random.some_of(&matters, 9);
    Draft { kind: "plain", facts: matters.clone(), started, matters, moves, goal: "()".to_string(), ..Draft::default() }
}

/// Moves that each set a fact of their own, and moves that ask after several of these at once: only some of the first,
/// done together, disturb one of the second.
fn many_conditions(random: &mut Random) -> Draft {
    let (setters, askers) = (random.between(2, 8), random.between(1, 4));
    let matters = names(random, setters + askers);
    let started = if random.percent(30) { random.some_of(&matters, 1) } else { Vec::new() };
    let (asked, own) = matters.split_at(setters);
    let mut moves = Vec::new();
    for (name, fact) in names(random, setters + askers).into_iter().zip(&matters) {
        let asks = own.contains(fact);
        let question = question(random, asked);
        let question = if random.percent(20) { format!("!{question}") } else { question };
        let condition = if asks { question.clone() } else { "()".to_string() };
        let need = if asks && random.percent(25) { format!("!{question}") } else { "()".to_string() };
        let effect = DraftEffect { condition, settings: vec![fact.clone()], strikes: Vec::new() };
        moves.push(DraftMove { name, need, effects: vec![effect] });
    }
    random.shuffle(&mut moves);
    Draft { kind: "plain", facts: matters.clone(), matters, started, moves, goal: "()".to_string(), ..Draft::default() }
}

/// Whether some of the facts stand all at once: one, two or up to six of them.
fn question(random: &mut Random, asked: &[String]) -> String {
    let count = match random.below(10) {
        0..=3 => 1,
        4..=7 => 2,
        _ => random.between(3, 6),
    };
    let mut facts = asked.to_vec();
    random.shuffle(&mut facts);
    facts.truncate(count);
    format!("({})", facts.join("&"))
}
