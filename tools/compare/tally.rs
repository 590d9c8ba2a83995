//! How many reports of each kind there were, and what differed.

use std::collections::BTreeMap;

pub struct Difference {
    pub seed: u64,
    pub expected: Vec<u8>,
    pub printed: Vec<u8>,
}

#[derive(Default)]
pub struct Tally {
    pub compared: u64,
    pub kinds: BTreeMap<String, u64>,
    pub differences: Vec<Difference>,
}

const MOST_SHOWN: usize = 5;

impl Tally {
    pub fn count(&mut self, kind: String) {
        *self.kinds.entry(kind).or_default() += 1;
    }

    pub fn join(&mut self, other: Tally) {
        self.compared += other.compared;
        self.differences.extend(other.differences);
        for (kind, count) in other.kinds {
            *self.kinds.entry(kind).or_default() += count;
        }
    }

    pub fn print(&mut self) {
        self.differences.sort_by_key(|difference| difference.seed);
        for (kind, count) in &self.kinds {
            println!("{count:8}  {kind}");
        }
        for difference in self.differences.iter().take(MOST_SHOWN) {
            difference.print();
        }
        println!("{} compared, {} differ", self.compared, self.differences.len());
    }
}

impl Difference {
    fn print(&self) {
        let shown = |bytes: &[u8]| bytes.escape_ascii().to_string().chars().take(160).collect::<String>();
        let place = self.expected.iter().zip(&self.printed).take_while(|(one, other)| one == other).count();
        println!("seed {}: from byte {} on", self.seed, place + 1);
        println!("  expected  {}", shown(&self.expected[place..]));
        println!("  printed   {}", shown(&self.printed[place..]));
    }
}

/// The kind of a report: `OK`, or `NO` with its number and its sheet.
pub fn kind_of_report(report: &[u8]) -> String {
    let text = String::from_utf8_lossy(report);
    let mut fields = text.lines().next().unwrap_or_default().split('\t');
    match (fields.next(), fields.next(), fields.next()) {
        (Some("NO"), Some(number), Some(sheet)) => format!("NO {number:>2} {sheet}"),
        (Some(word), _, _) => word.to_string(),
        _ => String::new(),
    }
}

/// The kind of an answer to a call: `ok`, `y`, `n`, or `NO` and its number.
pub fn kind_of_answer(line: &str) -> String {
    let mut words = line.split(' ');
    match (words.next(), words.next()) {
        (Some("NO"), Some(number)) => format!("NO {number:>2}"),
        (Some(word), _) => word.to_string(),
        _ => String::new(),
    }
}
