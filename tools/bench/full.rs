//! Depots and a plan that reach every limit, and of which every step is accepted.
//!
//! The moves of every other step set one half of the facts and strike the other half, and those of the steps between turn that
//! round. Each need and condition has a fact that changes and one that never stands, so none reads otherwise after any set,
//! but that is seen only if all of them are read after each.

/// The bytes of a depot sheet.
const FULL: usize = 32_768;
const MOVES: usize = 64;
const WORKING_MOVES: usize = 16;
const EFFECTS_OF_A_MOVE: usize = 16;
const STEPS: usize = 64;
const MOVES_OF_A_STEP: usize = 8;
const IN_A_LIST: usize = 8;
const ZONES: usize = 12;
const MATTERS: usize = 64;

/// With so many facts in the goal the formulas have the size that they may have, all together.
pub const GOAL_FACTS: usize = 14;

/// What comes above the moves, and the facts that they go by.
pub struct Outline {
    top: Vec<String>,
    never: String,
    changing: Vec<String>,
    halves: [Half; 2],
}

/// Facts of a half to be set, and others to be struck.
struct Half {
    set: Vec<String>,
    struck: Vec<String>,
}

/// Facts that are matters, of which some have a longer name.
pub fn plain(longer: usize) -> Outline {
    let name = |number: usize| format!("{}{number:02}", if number < longer { "fact" } else { "fct" });
    let names: Vec<String> = (0..MATTERS).map(name).collect();
    let half = |facts: &[String]| Half { set: facts.to_vec(), struck: facts.to_vec() };
    let mut top = vec!["K\tplain".to_string()];
    top.extend(lines("P", &names));
    top.extend(lines("F", &names));
    top.extend(lines("I", &names[32..]));
    Outline { top, never: name(0), changing: names[1..].to_vec(), halves: [half(&names[1..32]), half(&names[32..])] }
}

/// Eight facts about each of 15 matters, of which some have a longer name; a fact that never stands and seven more.
pub fn sight(longer: usize) -> Outline {
    let matter = |number: usize| format!("{}{number:x}", if number < longer { "m" } else { "" });
    let matters: Vec<String> = (0..15).map(matter).collect();
    let others: Vec<String> = (15..MATTERS).map(|number| format!("x{number}")).collect();
    let about = |matters: &[String], watchers: &[&str]| -> Vec<String> {
        matters.iter().flat_map(|matter| watchers.iter().map(move |watchers| format!("{watchers}.{matter}"))).collect()
    };
    let half = |matters: &[String]| Half {
        set: about(matters, &["all", "all.a"]),
        struck: about(matters, &["a", "b", "c.a", "d.c.a"]),
    };
    let changing = about(&matters, &["all", "a", "b", "all.a", "c.a", "d.c.a", "all.d.c.a", "all.e.d.c.a"]);
    let zones: Vec<String> = ('a'..).take(ZONES).map(String::from).collect();
    let mut top = vec!["K\tsight".to_string()];
    top.extend(lines("Z", &zones));
    top.extend(lines("P", &[&matters[..], &others].concat()));
    top.extend(lines("F", &changing));
    top.extend(lines("F", &others[..8]));
    top.extend(lines("I", &about(&matters[8..], &["all"])));
    Outline { top, never: others[0].clone(), changing, halves: [half(&matters[..8]), half(&matters[8..])] }
}

fn lines<'t>(letter: &'t str, texts: &'t [String]) -> impl Iterator<Item = String> + 't {
    texts.iter().map(move |text| format!("{letter}\t{text}"))
}

/// A depot sheet as long as it may be, or nearly: with as many longer names as fit, and then longer names of idle moves.
pub fn depot(outline: fn(usize) -> Outline, goal_facts: usize) -> Vec<u8> {
    let outlines = (0..=MATTERS).rev().map(outline);
    let fitting =
        outlines.map(|outline| (sheet(&outline, 0, goal_facts).len(), outline)).find(|(length, _)| *length <= FULL);
    match fitting {
        Some((length, outline)) => sheet(&outline, FULL - length, goal_facts).into_bytes(),
        None => Vec::new(),
    }
}

fn sheet(outline: &Outline, spare: usize, goal_facts: usize) -> String {
    let mut lines = outline.top.clone();
    for number in 0..WORKING_MOVES {
        add_move(&mut lines, outline, number);
    }
    add_idle_moves(&mut lines, spare);
    let goal = [&outline.changing[..goal_facts - 1], std::slice::from_ref(&outline.never)].concat();
    lines.push(format!("G\t!({})", goal.join("&")));
    lines.join("\n") + "\n"
}

/// A move of the first eight sets the first half, one of the others the second.
fn add_move(lines: &mut Vec<String>, outline: &Outline, number: usize) {
    let [first, second] = &outline.halves;
    let (set, struck) =
        if number < MOVES_OF_A_STEP { (&first.set, &second.struck) } else { (&second.set, &first.struck) };
    let first_part = number * (EFFECTS_OF_A_MOVE + 1);
    lines.push(format!("M\tm{number:02}\t!{}", never_true(outline, first_part)));
    for part in first_part + 1..=first_part + EFFECTS_OF_A_MOVE {
        let mark = if part % 2 == 0 { "!" } else { "" };
        let (set, struck) = (some_of(set, part), some_of(struck, part));
        lines.push(format!("E\t{mark}{}\t{set}\t{struck}", never_true(outline, part)));
    }
}

fn never_true(outline: &Outline, part: usize) -> String {
    format!("({}&{})", outline.changing[part * 11 % outline.changing.len()], outline.never)
}

fn some_of(facts: &[String], part: usize) -> String {
    let some: Vec<&str> =
        facts.iter().cycle().skip(part * 3 % facts.len()).take(IN_A_LIST).map(String::as_str).collect();
    some.join(",")
}

/// Moves that do nothing, with so many bytes more in their names as there is room for.
fn add_idle_moves(lines: &mut Vec<String>, mut spare: usize) {
    for number in 0..MOVES - WORKING_MOVES {
        let more = spare.min(5);
        spare -= more;
        lines.push(format!("M\tn{number:02}{}\t()", "0".repeat(more)));
    }
}

/// The moves that work, eight in each step, from another one on each time.
pub fn plan() -> String {
    let step = |number: usize| {
        let first = number % 2 * MOVES_OF_A_STEP;
        let name = |place: usize| format!("m{:02}", first + (place + number / 2) % MOVES_OF_A_STEP);
        (0..MOVES_OF_A_STEP).map(name).collect::<Vec<String>>().join("\t") + "\n"
    };
    (0..STEPS).map(step).collect()
}
