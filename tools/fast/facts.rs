//! Facts: their texts as numbers, and which carries which.

use super::names::{name, word, Table, Word, ALL};
use super::refusals::Trouble;

#[derive(Clone, Copy, PartialEq, Eq)]
pub enum Kind {
    Plain,
    Sight,
}

const MOST_WATCHERS: usize = 5;

/// Below, a fact is coded as its matter's number, and above that 4 bits for each watcher, the nearest lowest.
const MATTER_BITS: u32 = 6;
const WATCHER_BITS: u32 = 4;
const WATCHER_ALL: u64 = 1;
const FIRST_ZONE: u64 = 2;

/// A fact of the kind, coded, and whether it is always true.
#[derive(Clone, Copy)]
pub struct Coded {
    code: u64,
    pub is_always_true: bool,
}

pub struct Facts<'a> {
    pub kind: Kind,
    pub zones: Table,
    pub matters: Table,
    listed: Table,
    by_text: Table,
    codes: Vec<u64>,
    pub texts: Vec<&'a [u8]>,
}

/// A code as a key, which is above 0.
fn key(code: u64) -> u64 {
    code + 1
}

/// A key that few texts share.
fn text_key(text: &[u8]) -> u64 {
    let mix = |key: u64, part: u64| (key ^ part).wrapping_mul(0xff51_afd7_ed55_8ccd).rotate_left(29);
    let (words, rest) = text.as_chunks::<8>();
    let key = words.iter().fold(text.len() as u64, |key, &word| mix(key, u64::from_le_bytes(word)));
    let last = rest.iter().fold(0, |last, &byte| last << 8 | u64::from(byte));
    mix(key, last) | 1
}

impl<'a> Facts<'a> {
    pub fn new() -> Facts<'a> {
        Facts {
            kind: Kind::Plain,
            zones: Table::new(),
            matters: Table::new(),
            listed: Table::new(),
            by_text: Table::new(),
            codes: Vec::with_capacity(128),
            texts: Vec::with_capacity(128),
        }
    }

    pub fn read(&self, text: &[u8]) -> Result<Coded, Trouble> {
        match self.kind {
            Kind::Plain => {
                let matter = name(text).ok_or(Trouble::NotItsForm)?;
                let matter = self.matters.find(matter).ok_or(Trouble::NotListed)?;
                Ok(Coded { code: matter as u64, is_always_true: false })
            }
            Kind::Sight => self.read_sight(text),
        }
    }

    fn read_sight(&self, text: &[u8]) -> Result<Coded, Trouble> {
        let mut words: [Word; MOST_WATCHERS + 1] = [0; MOST_WATCHERS + 1];
        let mut count = 0;
        for part in text.split(|&byte| byte == b'.') {
            let place = words.get_mut(count).ok_or(Trouble::NotItsForm)?;
            *place = word(part).ok_or(Trouble::NotItsForm)?;
            count += 1;
        }
        let (matter, watchers) = words[..count].split_last().ok_or(Trouble::NotItsForm)?;
        if *matter == ALL {
            return Err(Trouble::NotItsForm);
        }
        let mut code = self.matters.find(*matter).ok_or(Trouble::NotListed)? as u64;
        let mut shift = MATTER_BITS;
        for &watcher in watchers.iter().rev() {
            code |= self.watcher(watcher)? << shift;
            shift += WATCHER_BITS;
        }
        let is_always_true = watchers.windows(2).any(|two| two[1] == ALL || two[0] == two[1]);
        Ok(Coded { code, is_always_true })
    }

    fn watcher(&self, word: Word) -> Result<u64, Trouble> {
        if word == ALL {
            return Ok(WATCHER_ALL);
        }
        self.zones.find(word).map(|zone| zone as u64 + FIRST_ZONE).ok_or(Trouble::NotListed)
    }

    pub fn number(&self, fact: Coded) -> Option<usize> {
        self.listed.find(key(fact.code))
    }

    /// The number of a listed fact, from 0. Most texts are those of listed facts, and then need not be read.
    pub fn listed(&self, text: &[u8]) -> Result<usize, Trouble> {
        match self.by_text.find(text_key(text)) {
            Some(fact) if self.texts[fact] == text => Ok(fact),
            _ => self.number(self.read(text)?).ok_or(Trouble::NotListed),
        }
    }

    pub fn add(&mut self, text: &'a [u8], fact: Coded) {
        self.listed.add(key(fact.code));
        self.by_text.add(text_key(text));
        self.codes.push(fact.code);
        self.texts.push(text);
    }

    /// For each listed fact those that it carries and those that carry it.
    pub fn carrying(&self) -> Carrying {
        let mut carrying = Carrying { carried: Vec::with_capacity(128), carriers: Vec::with_capacity(128) };
        carrying.carried.extend((0..self.codes.len()).map(|fact| 1u128 << fact));
        carrying.carriers.extend_from_slice(&carrying.carried);
        for (fact, &code) in self.codes.iter().enumerate() {
            // Each end of the fact that lacks one or more watchers; with `all` before it, it carries the fact.
            let mut shift = MATTER_BITS;
            while code >> shift != 0 {
                let end = code & ((1 << shift) - 1);
                if let Some(carrier) = self.listed.find(key(end | WATCHER_ALL << shift)) {
                    carrying.carried[carrier] |= 1 << fact;
                    carrying.carriers[fact] |= 1 << carrier;
                }
                shift += WATCHER_BITS;
            }
        }
        carrying
    }
}

pub struct Carrying {
    carried: Vec<u128>,
    carriers: Vec<u128>,
}

impl Carrying {
    /// Some facts, and all that they carry.
    pub fn carried_by(&self, facts: u128) -> u128 {
        bits(facts).fold(0, |sum, fact| sum | self.carried[fact])
    }

    /// Some facts, and all that carry one of them.
    pub fn carriers_of(&self, facts: u128) -> u128 {
        bits(facts).fold(0, |sum, fact| sum | self.carriers[fact])
    }
}

/// The numbers of the bits that are set, the lowest first.
pub fn bits(mut set: u128) -> impl Iterator<Item = usize> {
    std::iter::from_fn(move || {
        let lowest = set.trailing_zeros() as usize;
        set &= set.wrapping_sub(1);
        (lowest < 128).then_some(lowest)
    })
}
