//! A depot sheet before it is written down, and the names, facts and formulas that it is made of.

use super::random::Random;

#[derive(Clone, Default)]
pub struct Draft {
    pub kind: &'static str,
    pub zones: Vec<String>,
    pub matters: Vec<String>,
    pub facts: Vec<String>,
    pub started: Vec<String>,
    pub moves: Vec<DraftMove>,
    pub goal: String,
}

#[derive(Clone, Default)]
pub struct DraftMove {
    pub name: String,
    pub need: String,
    pub effects: Vec<DraftEffect>,
}

#[derive(Clone, Default)]
pub struct DraftEffect {
    pub condition: String,
    pub settings: Vec<String>,
    pub strikes: Vec<String>,
}

impl Draft {
    pub fn sheet(&self) -> Vec<u8> {
        let mut lines = vec![format!("K\t{}", self.kind)];
        let lists = [("Z", &self.zones), ("P", &self.matters), ("F", &self.facts), ("I", &self.started)];
        for (letter, entries) in lists {
            lines.extend(entries.iter().map(|entry| format!("{letter}\t{entry}")));
        }
        for DraftMove { name, need, effects } in &self.moves {
            lines.push(format!("M\t{name}\t{need}"));
            lines.extend(effects.iter().map(DraftEffect::line));
        }
        lines.push(format!("G\t{}", self.goal));
        (lines.join("\n") + "\n").into_bytes()
    }
}

impl DraftEffect {
    pub fn line(&self) -> String {
        format!("E\t{}\t{}\t{}", self.condition, list(&self.settings), list(&self.strikes))
    }
}

fn list(facts: &[String]) -> String {
    if facts.is_empty() {
        "-".to_string()
    } else {
        facts.join(",")
    }
}

const NAME_BYTES: &[u8] = b"abcdefghijklmnopqrstuvwxyz0123456789";

pub fn name(random: &mut Random, length: usize) -> String {
    (0..length).filter_map(|_| random.pick(NAME_BYTES).copied()).map(char::from).collect()
}

/// So many names that differ, some of one byte and some of eight.
pub fn names(random: &mut Random, count: usize) -> Vec<String> {
    let mut names: Vec<String> = Vec::new();
    while names.len() < count {
        let length = if random.percent(50) { random.between(1, 3) } else { random.between(4, 8) };
        let new = name(random, length);
        if new != "all" && !names.contains(&new) {
            names.push(new);
        }
    }
    names
}

/// A sight fact with so many watchers, now and then one that is always true.
pub fn sight_fact(random: &mut Random, zones: &[String], matter: &str, watchers: usize) -> String {
    let mut parts: Vec<String> = Vec::new();
    for place in 0..watchers {
        let takes_all = if place == 0 { random.percent(40) } else { random.below(300) == 0 };
        let zone = random.pick(zones).filter(|_| !takes_all).cloned().unwrap_or_else(|| "all".to_string());
        if parts.last() != Some(&zone) || random.below(300) == 0 {
            parts.push(zone);
        }
    }
    parts.push(matter.to_string());
    parts.join(".")
}

/// A formula over some facts, at most so deep.
pub fn formula(random: &mut Random, facts: &[String], depth: usize) -> String {
    let Some(fact) = random.pick(facts).cloned() else { return "()".to_string() };
    if depth == 0 || random.percent(30) {
        return fact;
    }
    if random.percent(35) {
        return format!("!{}", formula(random, facts, depth - 1));
    }
    let count = random.below(4);
    let parts: Vec<String> = (0..count).map(|_| formula(random, facts, depth - 1)).collect();
    format!("({})", parts.join("&"))
}

/// A formula that is short enough for a line.
pub fn short_formula(random: &mut Random, facts: &[String]) -> String {
    let depth = random.between(1, 4);
    let long = formula(random, facts, depth);
    if long.len() > 90 {
        "()".to_string()
    } else {
        long
    }
}
