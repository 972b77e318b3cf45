//! What the lines work on, and what each of them does: the letters are those of
//! `crates/request_cases/src/main.rt`.

use crate::digest;
use crate::line::Line;
use model::codes::call;
use model::layout::file::BLOCK;
use model::layout::header::{CONTROL_CODE, LENGTH, RETURN_CODE};
use model::layout::{DISK, MAX_PHYS, STAGE};
use model::{Connector, Phy, Row, State};

/// Room for a file, and for the buffer of a request; a line says how much of it is lent.
const ROOM: usize = 65_536;

/// HeaderLength 28, and the signature of every code but 1 to 4.
const HEADER_START: &[u8] = b"\x1c\0\0\0CSMISAS\0";

pub struct Adapter {
    file: Vec<u8>,
    /// Room for the disks of 32 phys.
    medium: Vec<u8>,
    /// Room for a stage, of which requests are lent the first so many bytes.
    stage: Vec<u8>,
    lent: usize,
    state: State,
}

impl Adapter {
    /// Before the first line.
    pub fn new() -> Self {
        Adapter {
            file: vec![0; ROOM],
            medium: vec![0; DISK * MAX_PHYS],
            stage: vec![0; ROOM],
            lent: STAGE,
            state: State::ZERO,
        }
    }

    /// Does what a line says: what it prints, if it prints anything.
    pub fn line(&mut self, whole: &str) -> Option<String> {
        let mut line = Line(whole);
        match line.word() {
            "f" => self.file.fill(0),
            "p" => self.block(line),
            "l" => self.level_and_counts(line),
            "y" => self.phy(line),
            "w" => self.row(line),
            "c" => self.connector(line),
            "t" => self.stage(line),
            "i" => self.staged(line),
            "o" => return Some(self.open(line)),
            "q" => return Some(self.request(line)),
            "#" => return Some(whole.to_string()),
            letter => panic!("no line begins with '{letter}'"),
        }
        None
    }

    /// p BLOCK AT:HEX ..
    fn block(&mut self, mut line: Line) {
        let at = BLOCK * line.number::<usize>();
        line.patch(&mut self.file[at..]);
    }

    /// l LEVEL PHYS ROWS
    fn level_and_counts(&mut self, mut line: Line) {
        self.state.level = line.number();
        self.state.p = line.number();
        self.state.a = line.number();
    }

    /// y PHY AT:HEX ..
    fn phy(&mut self, mut line: Line) {
        let n: usize = line.number();
        self.state.phys[n] = Phy::from_bytes(&line.patched());
    }

    /// w ROW AT:HEX ..
    fn row(&mut self, mut line: Line) {
        let i: usize = line.number();
        self.state.rows[i] = Row::from_bytes(&line.patched());
    }

    /// c PHY AT:HEX ..
    fn connector(&mut self, mut line: Line) {
        let n: usize = line.number();
        self.state.connectors[n] = Connector(line.patched());
    }

    /// t SIZE STEP
    fn stage(&mut self, mut line: Line) {
        self.lent = line.number();
        fill(&mut self.stage, line.number());
    }

    /// i STAGED AT:HEX ..
    fn staged(&mut self, mut line: Line) {
        self.state.staged = line.number();
        let bytes: [u8; 8] = line.patched();
        let (numbers, _) = bytes.as_chunks();
        for (revision, &number) in self.state.staged_revisions.iter_mut().zip(numbers) {
            *revision = u16::from_le_bytes(number);
        }
    }

    /// o MEDIUM FILE STEP TEXT
    fn open(&mut self, mut line: Line) -> String {
        let lent: usize = line.number();
        let length: usize = line.number();
        fill(&mut self.medium, line.number());
        let (medium, file) = (&self.medium[..lent], &self.file[..length]);
        let (number, state) = model::open(line.0.as_bytes(), file, medium);
        self.state = state;
        let [file, medium] = [file, medium].map(digest::of_bytes);
        format!(
            "o {number} {file} {medium} {}",
            digest::of_state(&self.state)
        )
    }

    /// q MEDIUM SIZE STEP CODE LENGTH AT:HEX ..
    fn request(&mut self, mut line: Line) -> String {
        let lent: usize = line.number();
        let size: usize = line.number();
        let (medium, buffer) = (&mut self.medium[..lent], &mut sent(line)[..size]);
        let stage = &mut self.stage[..self.lent];
        let number = model::request(&mut self.state, medium, stage, buffer);
        let code = return_code(number, buffer);
        let [buffer, medium, stage] = [&*buffer, &*medium, &*stage].map(digest::of_bytes);
        let state = digest::of_state(&self.state);
        format!("q {number} {code} {buffer} {medium} {stage} {state}")
    }
}

/// Byte i becomes step × (i + 1) modulo 251.
fn fill(bytes: &mut [u8], step: usize) {
    for (i, byte) in bytes.iter_mut().enumerate() {
        *byte = (step * (i + 1) % 251) as u8;
    }
}

/// A request from STEP on, in all the room there is: a pattern, over it a header and other bytes.
fn sent(mut line: Line) -> Vec<u8> {
    let mut buffer = vec![0; ROOM];
    fill(&mut buffer, line.number());
    buffer[..HEADER_START.len()].copy_from_slice(HEADER_START);
    for at in [CONTROL_CODE, LENGTH] {
        let number: u32 = line.number();
        buffer[at..][..4].copy_from_slice(&number.to_le_bytes());
    }
    line.patch(&mut buffer);
    buffer
}

/// The return code, where the call writes one.
fn return_code(number: u32, buffer: &[u8]) -> String {
    if number != call::DONE {
        return "-".to_string();
    }
    let code = buffer[RETURN_CODE..LENGTH].try_into();
    u32::from_le_bytes(code.expect("four bytes")).to_string()
}
