//! The lab kit: adapter files and sessions as text and back, a reply in words, and what differs between replies.
//!
//! It knows where things stand in the files and buffers of document 01 and of CSMI (T10 04-284r0, "001"), and the names of
//! their numbers. It answers no request: that is the simulator's part.
//!
//! The two forms of text are described in `docs/LAB.md`.

pub mod adapter;
pub mod fault;
pub mod field;
pub mod named;
pub mod names;
pub mod report;
pub mod session;
pub mod text;
pub mod value;

pub use fault::Fault;
