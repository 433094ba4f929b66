//! The exported functions, as `include/brothowl.h` declares them. Nothing checks these lines against the Rattle
//! source, so they are few and stand in one place.

/// A refusal's number and place; both 0 where nothing was refused.
#[repr(C)]
#[derive(Clone, Copy)]
pub(crate) struct Verdict {
    pub number: u64,
    pub place: u64,
}

#[repr(C)]
#[derive(Clone, Copy)]
pub(crate) struct PackVerdict {
    pub number: u64,
    pub place: u64,
    pub key: u64,
}

#[repr(C)]
#[derive(Clone, Copy)]
pub(crate) struct UnpackVerdict {
    pub number: u64,
    pub place: u64,
    pub card: u64,
    pub rollover: u64,
    pub folder: u64,
    pub frame: u64,
    pub kind: u64,
}

#[repr(C)]
#[derive(Clone, Copy)]
pub(crate) struct AskVerdict {
    pub number: u64,
    pub place: u64,
    pub all: u64,
}

#[repr(C)]
#[derive(Clone, Copy)]
pub(crate) struct WalkVerdict {
    pub number: u64,
    pub place: u64,
    pub written: u64,
}

extern "C" {
    fn brothowl_make(region: *mut u64, words: usize, p: u64, s: u64, c: u64, n: u64) -> Verdict;
    fn brothowl_pack(card: u64, rollover: u64, folder: u64, frame: u64, kind: u64) -> PackVerdict;
    fn brothowl_unpack(word: u64) -> UnpackVerdict;
    fn brothowl_check(region: *const u64, words: usize) -> Verdict;
    fn brothowl_list(
        region: *mut u64,
        region_words: usize,
        codes: *const u8,
        codes_len: usize,
        words: *const u64,
        words_len: usize,
        answers: *mut u8,
        answers_len: usize,
    ) -> Verdict;
    fn brothowl_all_members(region: *const u64, region_words: usize, words: *const u64, words_len: usize) -> AskVerdict;
    fn brothowl_walk(region: *const u64, region_words: usize, start: u64, output: *mut u64, output_len: usize) -> WalkVerdict;
    fn brothowl_combine(
        code: u64,
        a: *const u64,
        a_words: usize,
        b: *const u64,
        b_words: usize,
        destination: *mut u64,
        destination_words: usize,
    ) -> Verdict;
}

pub(crate) fn make(region: &mut [u64], p: u64, s: u64, c: u64, n: u64) -> Verdict {
    // SAFETY: pointer and length are those of a slice that is borrowed for writing, and the entry takes any contents.
    unsafe { brothowl_make(region.as_mut_ptr(), region.len(), p, s, c, n) }
}

pub(crate) fn pack(card: u64, rollover: u64, folder: u64, frame: u64, kind: u64) -> PackVerdict {
    // SAFETY: numbers in, numbers out; the entry takes any.
    unsafe { brothowl_pack(card, rollover, folder, frame, kind) }
}

pub(crate) fn unpack(word: u64) -> UnpackVerdict {
    // SAFETY: as for pack.
    unsafe { brothowl_unpack(word) }
}

pub(crate) fn check(region: &[u64]) -> Verdict {
    // SAFETY: pointer and length are those of a slice that is borrowed for reading, and the entry takes any contents.
    unsafe { brothowl_check(region.as_ptr(), region.len()) }
}

pub(crate) fn list(region: &mut [u64], codes: &[u8], words: &[u64], answers: &mut [u8]) -> Verdict {
    // SAFETY: four slices, the first and the last borrowed for writing, so that none overlaps another one that is written.
    unsafe {
        brothowl_list(
            region.as_mut_ptr(),
            region.len(),
            codes.as_ptr(),
            codes.len(),
            words.as_ptr(),
            words.len(),
            answers.as_mut_ptr(),
            answers.len(),
        )
    }
}

pub(crate) fn all_members(region: &[u64], words: &[u64]) -> AskVerdict {
    // SAFETY: two slices borrowed for reading.
    unsafe { brothowl_all_members(region.as_ptr(), region.len(), words.as_ptr(), words.len()) }
}

pub(crate) fn walk(region: &[u64], start: u64, output: &mut [u64]) -> WalkVerdict {
    // SAFETY: the output is borrowed for writing, so it is no part of the region.
    unsafe { brothowl_walk(region.as_ptr(), region.len(), start, output.as_mut_ptr(), output.len()) }
}

pub(crate) fn combine(code: u64, a: &[u64], b: &[u64], destination: &mut [u64]) -> Verdict {
    // SAFETY: the destination is borrowed for writing, so it is neither operand; a and b may be one slice.
    unsafe {
        brothowl_combine(
            code,
            a.as_ptr(),
            a.len(),
            b.as_ptr(),
            b.len(),
            destination.as_mut_ptr(),
            destination.len(),
        )
    }
}
