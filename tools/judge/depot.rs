//! What a depot sheet lists. Numbers count from 1, in the order of the sheet.

use super::formulas::Formula;
use super::kinds::{Kind, Names, Text};

pub struct Effect {
    pub condition: usize,
    pub settings: Vec<usize>,
    pub strikes: Vec<usize>,
}

pub struct Move {
    pub name: Text,
    pub need: usize,
    pub effects: Vec<Effect>,
}

#[derive(Default)]
pub struct Depot {
    pub kind: Kind,
    pub names: Names,
    pub facts: Vec<Text>,
    pub started: Vec<usize>,
    pub moves: Vec<Move>,
    pub formulas: Vec<Formula<usize>>,
    /// At row a - 1 and column b - 1 whether fact a carries fact b.
    carrying: Vec<Vec<bool>>,
}

/// The entry with a number counted from 1.
fn entry<T>(list: &[T], number: usize) -> Option<&T> {
    number.checked_sub(1).and_then(|index| list.get(index))
}

impl Depot {
    pub fn move_with(&self, number: usize) -> Option<&Move> {
        entry(&self.moves, number)
    }

    pub fn formula_with(&self, number: usize) -> Option<&Formula<usize>> {
        entry(&self.formulas, number)
    }

    pub fn fact_with(&self, number: usize) -> Option<&Text> {
        entry(&self.facts, number)
    }

    pub fn fact_numbers(&self) -> std::ops::RangeInclusive<usize> {
        1..=self.facts.len()
    }

    pub fn number_of_fact(&self, text: &[u8]) -> Option<usize> {
        self.facts.iter().position(|fact| fact == text).map(|index| index + 1)
    }

    pub fn number_of_move(&self, name: &[u8]) -> Option<usize> {
        self.moves.iter().position(|listed| listed.name == name).map(|index| index + 1)
    }

    /// The goal's formula is the last, since its line is.
    pub fn goal(&self) -> usize {
        self.formulas.len()
    }

    pub fn formula_sizes(&self) -> usize {
        self.formulas.iter().map(Formula::size).sum()
    }

    /// Writes down which listed fact carries which, once all are listed.
    pub fn note_carrying(&mut self) {
        let row = |carrier: &Text| self.facts.iter().map(|fact| self.kind.carries(carrier, fact)).collect();
        self.carrying = self.facts.iter().map(row).collect();
    }

    pub fn carries(&self, carrier: usize, carried: usize) -> bool {
        entry(&self.carrying, carrier).and_then(|row| entry(row, carried)).is_some_and(|&carries| carries)
    }
}
