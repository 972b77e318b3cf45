//! The functions as the archive has them; `include/ascheknopf.h` says the same in C.

extern "C" {
    pub fn ascheknopf_open(
        text: *const u8,
        text_len: usize,
        file: *const u8,
        file_len: usize,
        medium: *const u8,
        medium_len: usize,
        state: *mut u8,
        state_len: usize,
    ) -> u32;

    pub fn ascheknopf_request(
        state: *mut u8,
        state_len: usize,
        medium: *mut u8,
        medium_len: usize,
        stage: *mut u8,
        stage_len: usize,
        buffer: *mut u8,
        buffer_len: usize,
    ) -> u32;

    pub fn ascheknopf_request_linux(
        state: *mut u8,
        state_len: usize,
        medium: *mut u8,
        medium_len: usize,
        stage: *mut u8,
        stage_len: usize,
        control: u32,
        buffer: *mut u8,
        buffer_len: usize,
    ) -> u32;

    pub fn ascheknopf_run(
        text: *const u8,
        text_len: usize,
        file: *const u8,
        file_len: usize,
        medium: *mut u8,
        medium_len: usize,
        stage: *mut u8,
        stage_len: usize,
        session: *mut u8,
        session_len: usize,
        record: *mut u8,
        record_len: usize,
    ) -> usize;

    pub fn ascheknopf_run_both(
        text: *const u8,
        text_len: usize,
        file: *const u8,
        file_len: usize,
        medium: *mut u8,
        medium_len: usize,
        stage: *mut u8,
        stage_len: usize,
        session: *mut u8,
        session_len: usize,
        record: *mut u8,
        record_len: usize,
    ) -> usize;

    pub fn ascheknopf_tally(
        record: *const u8,
        record_len: usize,
        totals: *mut u8,
        totals_len: usize,
    ) -> u32;
}

/// Either run.
pub type Run = unsafe extern "C" fn(
    *const u8,
    usize,
    *const u8,
    usize,
    *mut u8,
    usize,
    *mut u8,
    usize,
    *mut u8,
    usize,
    *mut u8,
    usize,
) -> usize;
