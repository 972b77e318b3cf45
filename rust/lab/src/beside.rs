//! Runs beside those that are shown. They ask the library what the mark rests on.

use crate::asked::Asked;
use crate::row::Row;
use crate::run::Run;
use labkit::session::Request;

/// It is asked whether requests get past their header's checks. And it is proved that a higher run without the requests denied in the
/// lower one gets the lower one's replies and leaves what it left.
pub struct Beside {
    asked: Asked,
    past_header: bool,
    without: Option<Run>,
    same: bool,
}

impl Beside {
    /// What is asked, and where two levels are compared a second run at the higher, just opened.
    pub fn new(asked: Asked, without: Option<Run>) -> Beside {
        Beside {
            asked,
            past_header: false,
            without,
            same: true,
        }
    }

    /// Which runs, that come to a request now, are below what it needs, if it is a Linux one.
    pub fn above(&mut self, request: &Request, runs: &[Run]) -> Vec<bool> {
        self.asked.above(request, runs)
    }

    /// Goes on with a request that the lower run has just handled.
    pub fn handle(&mut self, request: &Request, row: &Row, low: &Run) {
        if !self.past_header {
            self.past_header = self.asked.passes(request);
        }
        if let Some(without) = &mut self.without {
            if !row.answers[0].is_denied() {
                without.handle(request);
                self.same &= without.replied_as(low);
            }
        }
    }

    /// Whether some request got past its header's checks.
    pub fn past_header(&self) -> bool {
        self.past_header
    }

    /// Whether the run without the denied requests was the lower one, which has ended; none if there was no such run.
    pub fn explained(&self, low: &Run) -> Option<bool> {
        let without = self.without.as_ref()?;
        Some(self.same && without.left_as(low))
    }
}
