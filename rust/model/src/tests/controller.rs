//! Controller, status and connector messages (W-204): the replies to codes 2, 3 and 30, their places
//! in the file, their rules in file and state, and that codes which report alter nothing.

mod file;
mod replies;
mod state;
mod unaltered;

use super::headers::{Header, FIRST, LINUX};

/// Section 10's pinout constants together.
const PINOUT: u32 = 0x000F_0F03;
