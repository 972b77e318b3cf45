//! The end-to-end cases of the simulator as text, and the simulator run on files.

pub mod case;
pub mod simulator;
