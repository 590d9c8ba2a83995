//! A restart checker of its own, written from docs/ alone. Each module follows the words of a page, with no thought of
//! speed.

pub mod check;
pub mod depot;
pub mod depot_sheet;
pub mod fields;
pub mod formulas;
pub mod kinds;
pub mod lines;
pub mod plan_sheet;
pub mod refusals;
pub mod steps;
pub mod walkthrough;
