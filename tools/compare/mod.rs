//! Running the program and counting what comes out.

pub mod options;
pub mod program;
pub mod tally;
