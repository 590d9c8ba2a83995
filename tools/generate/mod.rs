//! Sheets, plans and calls made at random. Each is fixed by the seed that it is made from.

pub mod calls;
pub mod damage;
pub mod draft;
pub mod families;
pub mod limits;
pub mod pairs;
pub mod plans;
pub mod random;
pub mod steps;
