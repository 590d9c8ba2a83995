//! What a depot sheet lists. Numbers count from 0.

use super::facts::Facts;
use super::formulas::Formulas;
use super::names::Table;

/// What an effect sets and strikes, with what comes along: the facts that are added, and those that are removed.
#[derive(Clone, Copy, Default)]
pub struct Effect {
    pub set: u128,
    pub struck: u128,
    pub added: u128,
    pub removed: u128,
}

/// A move's need is the formula with its number, and the conditions of its effects are those after it.
#[derive(Clone, Copy)]
pub struct Move {
    pub need: usize,
    pub first_effect: usize,
    pub effects: usize,
}

pub struct Depot<'a> {
    pub facts: Facts<'a>,
    pub started: u128,
    pub names: Table,
    pub moves: Vec<Move>,
    pub effects: Vec<Effect>,
    pub formulas: Formulas,
}

impl<'a> Depot<'a> {
    pub fn new() -> Depot<'a> {
        Depot {
            facts: Facts::new(),
            started: 0,
            names: Table::new(),
            moves: Vec::with_capacity(64),
            effects: Vec::with_capacity(256),
            formulas: Formulas::new(),
        }
    }

    pub fn effects_of(&self, listed: &Move) -> &[Effect] {
        &self.effects[listed.first_effect..listed.first_effect + listed.effects]
    }

    /// Adds what is carried to what starts and to what each effect does, once all facts are listed.
    pub fn follow_carrying(&mut self) {
        let carrying = self.facts.carrying();
        self.started = carrying.carried_by(self.started);
        for effect in &mut self.effects {
            effect.added = carrying.carried_by(effect.set);
            effect.removed = carrying.carriers_of(effect.struck);
        }
    }
}
