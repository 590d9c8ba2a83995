//! Depots that reach one of the limits, or pass it by one.

use super::draft::{formula, name, names, sight_fact, Draft, DraftEffect, DraftMove};
use super::random::Random;

pub fn any_limit(random: &mut Random) -> Draft {
    let over = random.below(2);
    match random.below(13) {
        0 => zones(random, 12 + over),
        1 => matters(random, 64 + over),
        2 => facts(random, 128 + over),
        3 => moves(random, 64 + over),
        4 => effects_of_a_move(random, 16 + over),
        5 => effects_in_all(random, 256 + over),
        6 => sizes(random, 1_024 + over),
        7 => long_list(random, 8 + over),
        8 => watchers(random, 5 + over),
        9 => depth(random, 8 + over),
        10 => long_name(random, 8 + over),
        11 => long_line(random, 240 + over),
        _ => full_sheet(random, 32_768 + over),
    }
}

fn effect(condition: &str, settings: Vec<String>, strikes: Vec<String>) -> DraftEffect {
    DraftEffect { condition: condition.to_string(), settings, strikes }
}

/// A plain depot whose facts are its matters, with a move that sets one and a move that strikes another.
fn small(random: &mut Random, count: usize) -> Draft {
    let matters = names(random, count);
    let started = random.some_of(&matters, 3);
    let moves = names(random, 2);
    let set = effect("()", random.some_of(&matters, 1), Vec::new());
    let strike = effect("()", Vec::new(), random.some_of(&matters, 1));
    let moves = moves.into_iter().zip([set, strike]);
    Draft {
        kind: "plain",
        facts: matters.clone(),
        matters,
        started,
        moves: moves.map(|(name, effect)| DraftMove { name, need: "()".to_string(), effects: vec![effect] }).collect(),
        goal: "()".to_string(),
        ..Draft::default()
    }
}

fn small_sight(random: &mut Random, zones: usize) -> Draft {
    let zones = names(random, zones);
    Draft { kind: "sight", zones, ..small(random, 3) }
}

/// Now and then the last of a list has a trouble of its own: it has no form, is there twice, or is always true.
fn trouble_the_last(random: &mut Random, list: &mut [String]) {
    let first = list.first().cloned().unwrap_or_default();
    let Some(last) = list.last_mut().filter(|_| random.percent(30)) else { return };
    *last = match random.below(3) {
        0 => "Odd".to_string(),
        1 => first,
        _ => format!("all.all.{}", last.rsplit('.').next().unwrap_or_default()),
    };
}

fn zones(random: &mut Random, count: usize) -> Draft {
    let mut draft = small_sight(random, count);
    trouble_the_last(random, &mut draft.zones);
    draft
}

fn matters(random: &mut Random, count: usize) -> Draft {
    let mut draft = small(random, count);
    draft.facts.truncate(64);
    let facts = &draft.facts;
    draft.started.retain(|fact| facts.contains(fact));
    trouble_the_last(random, &mut draft.matters);
    draft
}

/// Sight facts with up to five watchers, most of them started, so that reports are long; some as long as they can be.
fn facts(random: &mut Random, count: usize) -> Draft {
    let mut draft = small_sight(random, 3);
    let longest = random.percent(40);
    if longest {
        draft.zones = (0..3).map(|number| format!("longzon{number}")).collect();
        draft.matters = (0..3).map(|number| format!("longmat{number}")).collect();
        draft.facts.clear();
        draft.moves.iter_mut().for_each(|listed| listed.effects.clear());
    }
    while draft.facts.len() < count {
        let matter = random.pick(&draft.matters).cloned().unwrap_or_default();
        let watchers = if longest { 5 } else { random.between(1, 5) };
        let fact = sight_fact(random, &draft.zones, &matter, watchers);
        if !draft.facts.contains(&fact) && is_likely_to_be_listed(random, &fact) {
            draft.facts.push(fact);
        }
    }
    draft.started = draft.facts.iter().filter(|_| longest || random.percent(90)).cloned().collect();
    trouble_the_last(random, &mut draft.facts);
    draft
}

/// Keeps out most facts that are always true; those that slip through are refused.
fn is_likely_to_be_listed(random: &mut Random, fact: &str) -> bool {
    let parts: Vec<&str> = fact.split('.').collect();
    let watchers = &parts[..parts.len() - 1];
    let always_true =
        watchers.windows(2).any(|two| two[0] == two[1]) || watchers.iter().skip(1).any(|&part| part == "all");
    !always_true || random.below(2_000) == 0
}

fn moves(random: &mut Random, count: usize) -> Draft {
    let mut draft = small(random, 8);
    draft.moves = names(random, count)
        .into_iter()
        .map(|name| DraftMove {
            name,
            need: "()".to_string(),
            effects: vec![effect("()", random.some_of(&draft.facts, 2), Vec::new())],
        })
        .collect();
    draft
}

fn effects_of_a_move(random: &mut Random, count: usize) -> Draft {
    let mut draft = small(random, 5);
    let effects: Vec<DraftEffect> = (0..count)
        .map(|_| effect(&formula(random, &draft.facts, 2), random.some_of(&draft.facts, 2), Vec::new()))
        .collect();
    if let Some(last) = draft.moves.last_mut() {
        last.effects = effects;
    }
    draft
}

fn effects_in_all(random: &mut Random, count: usize) -> Draft {
    let mut draft = small(random, 6);
    let mut left = count;
    let mut listed = Vec::new();
    for name in names(random, 40) {
        let here = left.min(random.between(6, 16));
        left -= here;
        let effects = (0..here).map(|_| effect("()", random.some_of(&draft.facts, 2), Vec::new())).collect();
        listed.push(DraftMove { name, need: "()".to_string(), effects });
    }
    draft.moves = listed;
    draft
}

/// A formula of a size that is at least 1, with one fact so many times.
fn formula_of_size(fact: &str, size: usize) -> String {
    if size <= 1 {
        fact.to_string()
    } else {
        format!("({})", vec![fact; size - 1].join("&"))
    }
}

/// Formulas whose sizes add up to a number, the goal's among them.
fn sizes(random: &mut Random, sum: usize) -> Draft {
    let mut draft = small(random, 4);
    draft.matters.push("q".to_string());
    draft.matters.sort();
    draft.matters.dedup();
    draft.facts = draft.matters.clone();
    let mut left = sum - 1;
    let mut listed = Vec::new();
    for name in names(random, 64) {
        let here = left.min(random.between(15, 60));
        left -= here;
        if here > 0 {
            let need = formula_of_size("q", here);
            listed.push(DraftMove { name, need, effects: Vec::new() });
        }
    }
    draft.started = vec!["q".to_string()];
    draft.moves = listed;
    draft
}

fn long_list(random: &mut Random, count: usize) -> Draft {
    let mut draft = small(random, 12);
    let facts: Vec<String> = draft.facts.iter().take(count).cloned().collect();
    let sets = random.percent(50);
    let (settings, strikes) = if sets { (facts, Vec::new()) } else { (Vec::new(), facts) };
    if let Some(first) = draft.moves.first_mut() {
        first.effects = vec![effect("()", settings, strikes)];
    }
    draft
}

fn watchers(random: &mut Random, count: usize) -> Draft {
    let mut draft = small_sight(random, 2);
    let zones: Vec<&str> = draft.zones.iter().map(String::as_str).collect();
    let parts: Vec<&str> = zones.iter().copied().cycle().take(count).collect();
    let matter = draft.matters.first().cloned().unwrap_or_default();
    let fact = format!("{}.{matter}", parts.join("."));
    draft.facts.push(fact.clone());
    draft.started.push(fact);
    draft
}

/// A need with so many `!` and brackets inside one another.
fn depth(random: &mut Random, count: usize) -> Draft {
    let mut draft = small(random, 3);
    let empty = random.percent(40);
    let mut need = if empty { "()".to_string() } else { random.pick(&draft.facts).cloned().unwrap_or_default() };
    for _ in usize::from(empty)..count {
        need = if random.percent(50) { format!("!{need}") } else { format!("({need})") };
    }
    if let Some(first) = draft.moves.first_mut() {
        first.need = need;
    }
    draft
}

fn long_name(random: &mut Random, length: usize) -> Draft {
    let mut draft = small_sight(random, 2);
    let new = name(random, length);
    match random.below(3) {
        0 => draft.zones.push(new),
        1 => draft.matters.push(new),
        _ => draft.moves.push(DraftMove { name: new, need: "()".to_string(), effects: Vec::new() }),
    }
    draft
}

/// A move whose line has so many bytes.
fn long_line(random: &mut Random, length: usize) -> Draft {
    let mut draft = small(random, 3);
    draft.matters = vec!["q".to_string(), "rr".to_string()];
    draft.facts = draft.matters.clone();
    draft.started = draft.facts.clone();
    let mut need = "q".to_string();
    while need.len() + 9 < length {
        need += if random.percent(50) { "&q" } else { "&rr" };
    }
    let name = "m".repeat(length.saturating_sub(need.len() + 5).clamp(1, 8));
    draft.moves = vec![DraftMove { name, need: format!("({need})"), effects: Vec::new() }];
    draft
}

/// A sheet that has so many bytes: effects with long lists, and at last matters as long as are wanted.
fn full_sheet(random: &mut Random, length: usize) -> Draft {
    let mut draft = small(random, 6);
    draft.matters = (0..16).map(|number| format!("matter{number:02}")).collect();
    draft.facts = draft.matters.clone();
    draft.started = random.some_of(&draft.facts, 16);
    draft.moves.clear();
    let mut left = length.saturating_sub(draft.sheet().len());
    for number in 0..64 {
        let need = "()".to_string();
        let mut listed = DraftMove { name: format!("m{number}"), need, effects: Vec::new() };
        left = left.saturating_sub(listed.name.len() + 6);
        while listed.effects.len() < 4 && left > 400 {
            let count = random.between(4, 8);
            let mut facts = draft.facts.clone();
            random.shuffle(&mut facts);
            let strikes = facts.split_off(8);
            facts.truncate(count);
            listed.effects.push(effect("()", facts, strikes));
            left -= listed.effects.last().map_or(0, |last| last.line().len() + 1);
        }
        draft.moves.push(listed);
    }
    fill_with_matters(&mut draft, length);
    draft
}

/// Adds matters, whose lines have 4 to 11 bytes, until the sheet has so many bytes.
fn fill_with_matters(draft: &mut Draft, length: usize) {
    let mut number = 0;
    loop {
        let left = length.saturating_sub(draft.sheet().len());
        if left < 4 {
            return;
        }
        let line = if left <= 11 { left } else { (left - 4).min(11) };
        draft.matters.push(format!("{number:0>width$}", width = line - 3));
        number += 1;
    }
}
