//! How far a long run has come, on a terminal alone.

use std::io::{IsTerminal, Write};
use std::time::{Duration, Instant};

const STEP: usize = 256;
const PAUSE: Duration = Duration::from_millis(100);

pub struct Progress {
    total: usize,
    on: bool,
    shown: bool,
    last: Instant,
}

impl Progress {
    pub fn new(total: usize) -> Progress {
        Progress {
            total,
            on: std::io::stderr().is_terminal(),
            shown: false,
            last: Instant::now(),
        }
    }

    /// Says that so many requests are done, now and then.
    pub fn at(&mut self, done: usize) {
        if !self.on || !done.is_multiple_of(STEP) || self.last.elapsed() < PAUSE {
            return;
        }
        self.last = Instant::now();
        self.shown = true;
        let _ = write!(
            std::io::stderr(),
            "\rlab: {done} of {} requests",
            self.total
        );
    }

    /// Takes the line away.
    pub fn end(&self) {
        if self.shown {
            let _ = write!(std::io::stderr(), "\r\x1B[K");
        }
    }
}
