//! The parts of the checker that is written for speed.

pub mod depot;
pub mod depot_sheet;
pub mod facts;
pub mod formulas;
pub mod lines;
pub mod names;
pub mod pairs;
pub mod plan_sheet;
pub mod refusals;
pub mod report;
pub mod sets;
pub mod steps;
