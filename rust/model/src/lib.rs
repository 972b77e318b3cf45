//! A SAS host adapter as a console sees it: an independent implementation of document 01,
//! to be compared with the proved one.
//!
//! Two calls: [`open`] an adapter, and handle one [`request`], or one with the Linux header,
//! [`request_linux`], on the medium and the stage that the call before it left; these also in their
//! two parts, [`tested`] and then [`answer`] or [`answer_linux`]. The modules follow the document's
//! parts, each resting on the ones before it: level, rates, state, link, fields, disk, file,
//! request, tally, program. `codes` and `layout` hold the numbers and the offsets; `state_bytes`
//! gives the state as bytes. [`Totals`] counts what the requests of a run came to, and [`program`]
//! is all that the program prints.

#![forbid(unsafe_code)]

mod bytes;
pub mod codes;
mod disk;
mod fields;
mod file;
pub mod layout;
mod level;
mod link;
mod program;
mod rates;
mod request;
mod state;
mod state_bytes;
mod tally;

#[cfg(test)]
mod tests;

pub use file::{block_check, open};
pub use program::program;
pub use request::{answer, answer_linux, denied, request, request_linux, tested};
pub use state::{Connector, Phy, Row, State};
pub use tally::{Line, LineKind, Totals};
