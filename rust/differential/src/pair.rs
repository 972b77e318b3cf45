//! The calls on both implementations at once: after each call the number and every byte of state, medium, stage and buffer have to
//! be equal.

use crate::firmware::is_granted_validation;
use crate::lent::Lent;
use crate::names::{call, state};
use crate::request::Request;
use crate::side::Side;
use crate::stage;
use crate::wire::{equal_bytes, first_difference};

/// The same state, medium and stage on both sides.
pub struct Pair {
    library: Lent,
    model: Lent,
}

pub struct Reply {
    pub number: u32,
    pub buffer: Vec<u8>,
}

impl Pair {
    /// With a stage of other bytes.
    pub fn of(state: &[u8], medium: &[u8]) -> Self {
        Pair::lending(state, medium, &stage::of_seed(0))
    }

    pub fn lending(state: &[u8], medium: &[u8], stage: &[u8]) -> Self {
        let lent = Lent {
            state: state.to_vec(),
            medium: medium.to_vec(),
            stage: stage.to_vec(),
        };
        Pair {
            library: lent.clone(),
            model: lent,
        }
    }

    pub fn state(&self) -> &[u8] {
        &self.library.state
    }

    pub fn medium(&self) -> &[u8] {
        &self.library.medium
    }

    pub fn stage(&self) -> &[u8] {
        &self.library.stage
    }

    /// Another state of the same length, which both are lent from now on.
    pub fn lend(&mut self, state: &[u8]) {
        self.library.state.copy_from_slice(state);
        self.model.state.copy_from_slice(state);
    }

    /// An opening over the state as it is: the number.
    pub fn open(&mut self, text: &[u8], file: &[u8]) -> Result<u32, String> {
        let [library, model] = self
            .both()
            .map(|(side, lent)| side.open(text, file, &lent.medium, &mut lent.state));
        equal_numbers(library, model)?;
        self.equal_bytes()?;
        Ok(library)
    }

    /// Each side with what it is lent.
    fn both(&mut self) -> [(Side, &mut Lent); 2] {
        [
            (Side::Library, &mut self.library),
            (Side::Model, &mut self.model),
        ]
    }

    /// Asserts that an opening at Full has this number, over a state of other bytes: it leaves the state that is expected, or the zero state.
    #[track_caller]
    pub fn opens(what: &str, file: &[u8], medium: &[u8], number: u32, accepted: &[u8]) {
        let mut pair = Pair::of(&[0xA5; state::SIZE], medium);
        assert_eq!(pair.open(b"CSMI=Full;", file), Ok(number), "{what}");
        let right = match number {
            call::DONE => pair.state() == accepted,
            _ => *pair.state() == [0; state::SIZE],
        };
        assert!(right, "{what}: the state");
    }

    /// One request. With a number other than 0, state and buffer are also held against what they were, and so is the stage but for a granted
    /// validation.
    pub fn request(&mut self, request: &Request) -> Result<Reply, String> {
        let (state, stage) = (self.state().to_vec(), self.stage().to_vec());
        let [library, model] = self.both().map(|(side, lent)| {
            let (number, buffer) = lent.request(side, request);
            Reply { number, buffer }
        });
        equal_numbers(library.number, model.number)?;
        equal_bytes("buffer", &library.buffer, &model.buffer)?;
        self.equal_bytes()?;
        if library.number != call::DONE {
            untouched("buffer", &request.buffer, &library.buffer)?;
            untouched("state", &state, self.state())?;
        }
        if !is_granted_validation(request, library.number, &library.buffer) {
            untouched("stage", &stage, self.stage())?;
        }
        Ok(library)
    }

    fn equal_bytes(&self) -> Result<(), String> {
        let (library, model) = (&self.library, &self.model);
        equal_bytes("state", &library.state, &model.state)?;
        equal_bytes("medium", &library.medium, &model.medium)?;
        equal_bytes("stage", &library.stage, &model.stage)
    }
}

/// The call's numbers of the two sides are equal.
pub fn equal_numbers(library: u32, model: u32) -> Result<(), String> {
    if library == model {
        return Ok(());
    }
    Err(format!("call's number: library {library}, model {model}"))
}

fn untouched(name: &str, before: &[u8], after: &[u8]) -> Result<(), String> {
    match first_difference(before, after) {
        None => Ok(()),
        Some(at) => Err(format!(
            "{name}, byte {at} is touched by a request that may not"
        )),
    }
}
