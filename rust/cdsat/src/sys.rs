//! The exported calls, and the only unsafe code of the workspace.

use std::mem::{offset_of, size_of};

/// What `cdsat_run` and `cdsat_check` return.
#[repr(C)]
#[derive(Clone, Copy)]
pub struct RawOutcome {
    pub verdict: u16,
    pub steps: u16,
    pub number: u16,
    pub entries: u16,
    pub place: u16,
}

/// What `cdsat_read` returns.
#[repr(C)]
#[derive(Clone, Copy)]
pub struct RawRead {
    pub number: u16,
    pub rows: [u16; 4],
    pub why: u16,
    pub line: u64,
    pub place: u64,
}

extern "C" {
    fn cdsat_run(
        sorts: *const u16,
        sorts_len: usize,
        terms: *const u16,
        terms_len: usize,
        inputs: *const u16,
        inputs_len: usize,
        steps: *const u16,
        steps_len: usize,
        work: *mut u64,
        work_len: usize,
        trail: *mut u16,
        trail_len: usize,
    ) -> RawOutcome;

    fn cdsat_read(
        text: *const u8,
        text_len: usize,
        sorts: *mut u16,
        sorts_len: usize,
        terms: *mut u16,
        terms_len: usize,
        inputs: *mut u16,
        inputs_len: usize,
        steps: *mut u16,
        steps_len: usize,
    ) -> RawRead;

    fn cdsat_check(text: *const u8, text_len: usize, said: *mut u8, said_len: usize) -> RawOutcome;
}

// The sizes and places that the library's calls answer with.
const _: () = {
    assert!(size_of::<RawOutcome>() == 10);
    assert!(offset_of!(RawOutcome, entries) == 6);
    assert!(offset_of!(RawOutcome, place) == 8);
    assert!(size_of::<RawRead>() == 32);
    assert!(offset_of!(RawRead, why) == 10);
    assert!(offset_of!(RawRead, line) == 16);
    assert!(offset_of!(RawRead, place) == 24);
};

pub fn run(
    sorts: &[u16],
    terms: &[u16],
    inputs: &[u16],
    steps: &[u16],
    work: &mut [u64],
    trail: &mut [u16],
) -> RawOutcome {
    // SAFETY: the call asks nothing of the numbers it is given. It reads the four
    // sheets and reads and writes the two buffers within their lengths alone, and
    // the borrows keep all six apart and alive until it returns.
    unsafe {
        cdsat_run(
            sorts.as_ptr(),
            sorts.len(),
            terms.as_ptr(),
            terms.len(),
            inputs.as_ptr(),
            inputs.len(),
            steps.as_ptr(),
            steps.len(),
            work.as_mut_ptr(),
            work.len(),
            trail.as_mut_ptr(),
            trail.len(),
        )
    }
}

pub fn read(
    text: &[u8],
    sorts: &mut [u16],
    terms: &mut [u16],
    inputs: &mut [u16],
    steps: &mut [u16],
) -> RawRead {
    // SAFETY: as above, the text read and the four sheets read and written within
    // their lengths alone.
    unsafe {
        cdsat_read(
            text.as_ptr(),
            text.len(),
            sorts.as_mut_ptr(),
            sorts.len(),
            terms.as_mut_ptr(),
            terms.len(),
            inputs.as_mut_ptr(),
            inputs.len(),
            steps.as_mut_ptr(),
            steps.len(),
        )
    }
}

pub fn check(text: &[u8], said: &mut [u8]) -> RawOutcome {
    // SAFETY: as above, the text read and the buffer written within their lengths
    // alone.
    unsafe { cdsat_check(text.as_ptr(), text.len(), said.as_mut_ptr(), said.len()) }
}
