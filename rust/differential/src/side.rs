//! The implementations behind the same functions: an opening, a request, a run, and the tally of a record.

use crate::case::{Case, Outcome};
use crate::names::{call, record, state, totals};
use crate::request::Header;
use crate::run::{self, Written};
use crate::wire::word;
use model::State;

#[derive(Clone, Copy, Debug, PartialEq, Eq)]
pub enum Side {
    /// The library; a run is its run.
    Library,
    /// The library's calls; a run is an opening, then its requests one at a time.
    LibraryCalls,
    /// The model, which holds its state as a value of its own.
    Model,
    /// The model over a state as bytes, which it reads and writes at each call, as the library's calls do.
    ModelCalls,
    /// The model with state and lengths tested before the first request of a run, not at each.
    ModelTestedOnce,
}

/// Each implementation, the library's in both ways.
pub const SIDES: [Side; 3] = [Side::Library, Side::LibraryCalls, Side::Model];

/// The two implementations of the calls.
pub const CALLS: [Side; 2] = [Side::Library, Side::Model];

impl Side {
    /// Opens an adapter: the call's number, and the state as the call leaves it.
    pub fn open(self, text: &[u8], file: &[u8], medium: &[u8], state: &mut [u8]) -> u32 {
        match self {
            Side::Library | Side::LibraryCalls => library::open(text, file, medium, state),
            _ => open_model(text, file, medium, state),
        }
    }

    /// The number of an opening alone.
    pub fn opening(self, text: &[u8], file: &[u8], medium: &[u8]) -> u32 {
        self.open(text, file, medium, &mut [0; state::SIZE])
    }

    /// Handles one request by the call of its header: the call's number; state, medium, stage and buffer as the call leaves them.
    pub fn request(
        self,
        header: Header,
        state: &mut [u8],
        medium: &mut [u8],
        stage: &mut [u8],
        buffer: &mut [u8],
    ) -> u32 {
        match self {
            Side::Library | Side::LibraryCalls => {
                request_library(header, state, medium, stage, buffer)
            }
            _ => request_model(header, state, medium, stage, buffer),
        }
    }

    /// The tally of a record: the call's number, and the totals as the call leaves them.
    pub fn tally(self, record: &[u8], totals: &mut [u8]) -> u32 {
        match self {
            Side::Library | Side::LibraryCalls => library::tally(record, totals),
            _ => tally_model(record, totals),
        }
    }

    pub fn run(self, case: &Case) -> Outcome {
        let (text, file) = (&case.text, &case.file);
        let mut medium = case.medium.clone();
        let mut stage = case.stage.clone();
        let mut session = case.session.clone();
        let mut record = case.record.clone();
        let written = Written {
            framing: case.framing,
            medium: &mut medium,
            stage: &mut stage,
            session: &mut session,
            record: &mut record,
        };
        let of_model = |state: &State| Some(state.to_bytes().to_vec());
        let (handled, state) = match self {
            Side::Library => (run::library(text, file, written), None),
            Side::LibraryCalls | Side::ModelCalls => {
                run::calls(self, text, file, written, |state| Some(state.to_vec()))
            }
            Side::Model => run::model(text, file, written, of_model),
            Side::ModelTestedOnce => run::tested_once(text, file, written, of_model),
        };
        Outcome {
            opening: self.opening(text, file, &case.medium),
            handled,
            medium,
            stage,
            session,
            record,
            state,
        }
    }

    /// A run alone, to be measured: the number of requests handled.
    pub fn run_in_place(self, text: &[u8], file: &[u8], written: Written) -> usize {
        match self {
            Side::Library => run::library(text, file, written),
            Side::LibraryCalls | Side::ModelCalls => {
                run::calls(self, text, file, written, |_| ()).0
            }
            Side::Model => run::model(text, file, written, |_| ()).0,
            Side::ModelTestedOnce => run::tested_once(text, file, written, |_| ()).0,
        }
    }
}

/// "a state of another length is 107", and stays; a refused opening leaves the zero state.
fn open_model(text: &[u8], file: &[u8], medium: &[u8], state: &mut [u8]) -> u32 {
    let Ok(state) = <&mut [u8; state::SIZE]>::try_from(state) else {
        return call::STATE;
    };
    let (number, opened) = model::open(text, file, medium);
    *state = opened.to_bytes();
    number
}

fn request_library(
    header: Header,
    state: &mut [u8],
    medium: &mut [u8],
    stage: &mut [u8],
    buffer: &mut [u8],
) -> u32 {
    match header {
        Header::First => library::request(state, medium, stage, buffer),
        Header::Linux { control } => library::request_linux(state, medium, stage, control, buffer),
    }
}

fn request_model(
    header: Header,
    state: &mut [u8],
    medium: &mut [u8],
    stage: &mut [u8],
    buffer: &mut [u8],
) -> u32 {
    let Ok(state) = <&mut [u8; state::SIZE]>::try_from(state) else {
        return call::STATE;
    };
    let mut held = State::from_bytes(state);
    let number = run::request(header, &mut held, medium, stage, buffer);
    *state = held.to_bytes();
    number
}

/// Where there is no room for the totals it is 100, and what is lent stays.
fn tally_model(record: &[u8], totals: &mut [u8]) -> u32 {
    let Some(start) = totals.first_chunk_mut::<{ totals::SIZE }>() else {
        return call::BUFFER_LENGTH;
    };
    let counted = model::Totals::of_record(record);
    for (place, total) in [
        (totals::REQUESTS, counted.requests),
        (totals::GRANTED, counted.granted),
        (totals::DENIED, counted.denied),
        (totals::OTHERWISE_REFUSED, counted.otherwise_refused),
        (totals::SHORT, counted.short),
    ] {
        start[place..place + 8].copy_from_slice(&(total as u64).to_le_bytes());
    }
    call::DONE
}

/// What the record holds of a reply.
pub fn return_code(number: u32, header: Header, buffer: &[u8]) -> u32 {
    if number == call::DONE {
        word(buffer, header.return_code())
    } else {
        record::NO_CODE
    }
}
