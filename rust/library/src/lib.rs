//! The six functions of the proved static library, over slices. All `unsafe` code of this workspace is here.

/// The bytes of a state; `include/ascheknopf.h` says what each is.
pub const STATE_SIZE: usize = 6190;

/// The bytes of a stage, which a firmware image is copied to.
pub const STAGE_SIZE: usize = 16384;

/// A line of the record that `run` and `run_both` write: two numbers of 32 bits.
pub mod record {
    /// The call's number.
    pub const NUMBER: usize = 0;
    /// The return code.
    pub const CODE: usize = 4;
    pub const SIZE: usize = 8;
    /// The return code in the line of a request that got none.
    pub const NO_CODE: u32 = 0xFFFF_FFFF;
}

/// What stands before each request of a session of both headers: three numbers of 32 bits.
pub mod prefix {
    /// Which header the request has.
    pub const HEADER: usize = 0;
    /// The control code of a Linux request; 0 with the first header.
    pub const CONTROL: usize = 4;
    /// The length of the request.
    pub const LENGTH: usize = 8;
    pub const SIZE: usize = 12;
    /// The first header, SRB_IO_CONTROL.
    pub const FIRST: u32 = 0;
    pub const LINUX: u32 = 1;
}

mod interface;
mod tables;
pub mod totals;

pub use tables::*;
pub use totals::Totals;

/// Opens an adapter: the call's number. 0 writes the state, a refusal the zero state; a state of another length than
/// `STATE_SIZE` is 107 and stays.
pub fn open(text: &[u8], file: &[u8], medium: &[u8], state: &mut [u8]) -> u32 {
    // Each slice is read for its own length only; the state, which is written, is borrowed mutably and overlaps none.
    unsafe {
        interface::ascheknopf_open(
            text.as_ptr(),
            text.len(),
            file.as_ptr(),
            file.len(),
            medium.as_ptr(),
            medium.len(),
            state.as_mut_ptr(),
            state.len(),
        )
    }
}

/// Handles one request: the call's number. With 0 the buffer is the reply, and state, medium and stage are those of the next request;
/// with any other nothing is touched.
pub fn request(state: &mut [u8], medium: &mut [u8], stage: &mut [u8], buffer: &mut [u8]) -> u32 {
    // As above; all four are written.
    unsafe {
        interface::ascheknopf_request(
            state.as_mut_ptr(),
            state.len(),
            medium.as_mut_ptr(),
            medium.len(),
            stage.as_mut_ptr(),
            stage.len(),
            buffer.as_mut_ptr(),
            buffer.len(),
        )
    }
}

/// Handles one request with the Linux header, whose control code stands beside the buffer: the call's number. The rest is as of `request`.
pub fn request_linux(
    state: &mut [u8],
    medium: &mut [u8],
    stage: &mut [u8],
    control: u32,
    buffer: &mut [u8],
) -> u32 {
    // As above; all four slices are written.
    unsafe {
        interface::ascheknopf_request_linux(
            state.as_mut_ptr(),
            state.len(),
            medium.as_mut_ptr(),
            medium.len(),
            stage.as_mut_ptr(),
            stage.len(),
            control,
            buffer.as_mut_ptr(),
            buffer.len(),
        )
    }
}

/// Opens, and handles the requests of a session in place, with a line of the record for each. Gives the number of requests
/// handled.
pub fn run(
    text: &[u8],
    file: &[u8],
    medium: &mut [u8],
    stage: &mut [u8],
    session: &mut [u8],
    record: &mut [u8],
) -> usize {
    run_by(
        interface::ascheknopf_run,
        text,
        file,
        medium,
        stage,
        session,
        record,
    )
}

/// The same for a session whose requests have either header, each with a `prefix` before it. A prefix of another header, or of the first
/// with a control code, ends the session.
pub fn run_both(
    text: &[u8],
    file: &[u8],
    medium: &mut [u8],
    stage: &mut [u8],
    session: &mut [u8],
    record: &mut [u8],
) -> usize {
    run_by(
        interface::ascheknopf_run_both,
        text,
        file,
        medium,
        stage,
        session,
        record,
    )
}

/// A run by one of the two functions.
fn run_by(
    run: interface::Run,
    text: &[u8],
    file: &[u8],
    medium: &mut [u8],
    stage: &mut [u8],
    session: &mut [u8],
    record: &mut [u8],
) -> usize {
    // As above; medium, stage, session and record are written.
    unsafe {
        run(
            text.as_ptr(),
            text.len(),
            file.as_ptr(),
            file.len(),
            medium.as_mut_ptr(),
            medium.len(),
            stage.as_mut_ptr(),
            stage.len(),
            session.as_mut_ptr(),
            session.len(),
            record.as_mut_ptr(),
            record.len(),
        )
    }
}

/// Counts the lines of a record, a run's first ones, and writes the `totals`: 0. Where there is no room for them it gives 100, and the
/// bytes lent for them stay.
pub fn tally(record: &[u8], totals: &mut [u8]) -> u32 {
    // As above; the totals are written.
    unsafe {
        interface::ascheknopf_tally(
            record.as_ptr(),
            record.len(),
            totals.as_mut_ptr(),
            totals.len(),
        )
    }
}

#[cfg(test)]
mod tests;
