//! Compares the proved library with the model on generated openings, states, requests, sessions and records, and tests both against
//! the claims of document 01 about whole runs. Every input comes from a seed.

pub mod adapter;
pub mod case;
pub mod compare;
pub mod coverage;
pub mod firmware;
pub mod generate;
pub mod last_writer;
pub mod lent;
pub mod medium;
pub mod names;
pub mod need;
pub mod pair;
pub mod random;
pub mod read_only;
pub mod reporting;
pub mod request;
pub mod run;
pub mod sameness;
pub mod session;
pub mod side;
pub mod spinup;
pub mod stage;
pub mod start;
pub mod state;
pub mod sweep;
pub mod tally;
pub mod text;
pub mod two_runs;
pub mod wire;
