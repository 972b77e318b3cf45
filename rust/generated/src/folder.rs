//! Folders from a seed: a level text, an adapter file and a session, sound and damaged.

use cases::simulator::Input;
use differential::adapter::Adapter;
use differential::generate::{damaged_opening, requests_of, sound_opening};
use differential::random::Random;
use differential::session::{end, Framing};
use labkit::{adapter, session};

/// More of each kind than a number of 16 bits counts.
const MANY: usize = 66_000;

pub struct Folder {
    /// None if the file is missing.
    level: Option<Vec<u8>>,
    adapter: Option<Vec<u8>>,
    session: Vec<u8>,
}

impl Folder {
    pub fn of_seed(seed: u64) -> Folder {
        let random = &mut Random::new(seed);
        let (phys, rows) = (phys(random), random.within(0, 30));
        let adapter = Adapter::of_counts(random, phys, rows);
        let opening = match random.one_in(5) {
            true => damaged_opening(random, &adapter),
            false => sound_opening(random, &adapter),
        };
        Folder {
            level: mostly(random, opening.text),
            adapter: mostly(random, opening.file),
            session: any_session(random, &adapter),
        }
    }

    /// Many requests of each kind.
    pub fn long() -> Folder {
        let each = [
            "get-link-errors",
            "get-link-errors reset=1",
            "request",
            "raw",
        ];
        let each: String = each.map(|line| format!("{line}\n")).concat();
        let requests = session::parse(&each).expect("four requests");
        Folder {
            level: Some(b"CSMI=Restricted;".to_vec()),
            adapter: Some(adapter::parse("phy").expect("an adapter")),
            session: requests.repeat(MANY),
        }
    }

    pub fn input(&self) -> Input<'_> {
        Input {
            level: self.level.as_deref(),
            adapter: self.adapter.as_deref(),
            session: &self.session,
        }
    }

    /// The first requests of the session.
    pub fn requests(&self, count: usize) -> Vec<&[u8]> {
        let split = Framing::First.split(&self.session, count).into_iter();
        split.map(|(_, request)| request).collect()
    }

    /// What the model prints. "A missing file counts as empty."
    pub fn expected(&self) -> String {
        let [text, file] = [&self.level, &self.adapter].map(|file| file.as_deref().unwrap_or(&[]));
        model::program(text, file, &self.session)
    }
}

/// Mostly what the program takes, sometimes more.
fn phys(random: &mut Random) -> usize {
    match random.below(8) {
        0 => random.pick(&[7, 7, 8, 9, 32]),
        _ => random.within(1, adapter::PROGRAM_PHYS),
    }
}

/// A file, which is missing one time in thirty.
fn mostly(random: &mut Random, file: Vec<u8>) -> Option<Vec<u8>> {
    (!random.one_in(30)).then_some(file)
}

/// Requests and any end; sometimes cut anywhere, or with another byte.
fn any_session(random: &mut Random, adapter: &Adapter) -> Vec<u8> {
    let count = match random.below(12) {
        0 => 0,
        1 => random.within(256, 600),
        _ => random.within(1, 40),
    };
    let requests = requests_of(random, adapter, count, Framing::First);
    let mut session = Framing::First.join(&requests);
    session.extend(end::any(random, Framing::First));
    if !session.is_empty() {
        let at = random.below(session.len());
        match random.below(8) {
            0 => session.truncate(at),
            1 => session[at] = random.byte(),
            _ => {}
        }
    }
    session
}
