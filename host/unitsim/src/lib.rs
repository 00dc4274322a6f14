//! The boundary at which a ship stands in the simulator; the simulator itself is the program.

pub mod proved;
pub mod ship;
