//! The archive's calls over plain words: a state of [`STATE_WORDS`] words, a page, a bitmap.
//!
//! These are safe, for the archive answers for every input: it reads and writes inside the slices that it is lent and
//! nowhere else, and wrong lengths are refused with number 2. The slices are never null and never misaligned, and the
//! borrow checker keeps them apart. This is the crate's only module with unsafe code.

#![allow(unsafe_code)]

/// The words of a state: n, bw, W, S, T, on, then for each of eight workers own, got, operation, stage, tag, hand,
/// seen, sightings.
pub const STATE_WORDS: usize = 70;

/// The words of an event: kind (1 request, 2 move, 3 on, 4 off), worker, code (a move's flag), a, b.
pub const EVENT_WORDS: usize = 5;

/// The words of an event's answer: number, value.
pub const ANSWER_WORDS: usize = 2;

/// A state as words. Any words are a state; those that no run leads to are answered too.
pub type State = [u64; STATE_WORDS];

/// An answer as the archive gives it.
#[derive(Clone, Copy, Debug, PartialEq, Eq)]
#[repr(C)]
pub struct Numbers {
    /// Document 01's number, 0 to 11.
    pub number: u64,
    /// The value, 0 unless the number is 0.
    pub value: u64,
}

extern "C" {
    fn albmerik_fresh(
        state: *mut u64,
        page: *const u64,
        page_len: usize,
        bits: *mut u64,
        bits_len: usize,
        n: u64,
        bw: u64,
        w: u64,
    ) -> Numbers;
    fn albmerik_request(
        state: *mut u64,
        page: *mut u64,
        page_len: usize,
        bits: *mut u64,
        bits_len: usize,
        worker: u64,
        code: u64,
        a: u64,
        b: u64,
    ) -> Numbers;
    fn albmerik_move(
        state: *mut u64,
        page: *mut u64,
        page_len: usize,
        bits: *const u64,
        bits_len: usize,
        worker: u64,
        flag: u64,
    ) -> Numbers;
    fn albmerik_on(state: *mut u64, page: *const u64, page_len: usize, bits: *const u64, bits_len: usize) -> Numbers;
    fn albmerik_off(state: *mut u64, page: *const u64, page_len: usize, bits: *const u64, bits_len: usize) -> Numbers;
    fn albmerik_events(
        state: *mut u64,
        page: *mut u64,
        page_len: usize,
        bits: *mut u64,
        bits_len: usize,
        events: *const u64,
        events_len: usize,
        answers: *mut u64,
        answers_len: usize,
    ) -> Numbers;
    fn albmerik_listed_count(
        state: *const u64,
        page: *const u64,
        page_len: usize,
        bits: *const u64,
        bits_len: usize,
    ) -> Numbers;
    fn albmerik_first_unlisted(
        state: *const u64,
        page: *const u64,
        page_len: usize,
        bits: *const u64,
        bits_len: usize,
    ) -> Numbers;
    fn albmerik_entry_answer(
        state: *const u64,
        page: *const u64,
        page_len: usize,
        bits: *const u64,
        bits_len: usize,
        a: u64,
    ) -> Numbers;
    fn albmerik_compare_entries(
        state: *const u64,
        page: *const u64,
        page_len: usize,
        bits: *const u64,
        bits_len: usize,
        a: u64,
        b: u64,
    ) -> Numbers;
}

/// Makes a fresh state of n blocks of bw words for W workers. The bitmap is zeroed, the page stays. Refused, all words
/// of the state are 0.
#[inline]
pub fn fresh(state: &mut State, page: &[u64], bits: &mut [u64], n: u64, bw: u64, w: u64) -> Numbers {
    unsafe { albmerik_fresh(state.as_mut_ptr(), page.as_ptr(), page.len(), bits.as_mut_ptr(), bits.len(), n, bw, w) }
}

/// A worker's request, by its number 1 to 13.
#[inline]
pub fn request(
    state: &mut State,
    page: &mut [u64],
    bits: &mut [u64],
    worker: u64,
    code: u64,
    a: u64,
    b: u64,
) -> Numbers {
    unsafe {
        albmerik_request(
            state.as_mut_ptr(),
            page.as_mut_ptr(),
            page.len(),
            bits.as_mut_ptr(),
            bits.len(),
            worker,
            code,
            a,
            b,
        )
    }
}

/// A worker's move; any nonzero flag is set.
#[inline]
pub fn make_move(state: &mut State, page: &mut [u64], bits: &[u64], worker: u64, flag: u64) -> Numbers {
    unsafe { albmerik_move(state.as_mut_ptr(), page.as_mut_ptr(), page.len(), bits.as_ptr(), bits.len(), worker, flag) }
}

/// Switches T on.
#[inline]
pub fn on(state: &mut State, page: &[u64], bits: &[u64]) -> Numbers {
    unsafe { albmerik_on(state.as_mut_ptr(), page.as_ptr(), page.len(), bits.as_ptr(), bits.len()) }
}

/// Switches T off.
#[inline]
pub fn off(state: &mut State, page: &[u64], bits: &[u64]) -> Numbers {
    unsafe { albmerik_off(state.as_mut_ptr(), page.as_ptr(), page.len(), bits.as_ptr(), bits.len()) }
}

/// Runs events in order, [`EVENT_WORDS`] words each, and writes [`ANSWER_WORDS`] words for each.
#[inline]
pub fn events(state: &mut State, page: &mut [u64], bits: &mut [u64], events: &[u64], answers: &mut [u64]) -> Numbers {
    unsafe {
        albmerik_events(
            state.as_mut_ptr(),
            page.as_mut_ptr(),
            page.len(),
            bits.as_mut_ptr(),
            bits.len(),
            events.as_ptr(),
            events.len(),
            answers.as_mut_ptr(),
            answers.len(),
        )
    }
}

/// How many blocks are on a list or in a hand.
#[inline]
pub fn listed_count(state: &State, page: &[u64], bits: &[u64]) -> Numbers {
    unsafe { albmerik_listed_count(state.as_ptr(), page.as_ptr(), page.len(), bits.as_ptr(), bits.len()) }
}

/// The smallest block that is neither on a list nor in a hand.
#[inline]
pub fn first_unlisted(state: &State, page: &[u64], bits: &[u64]) -> Numbers {
    unsafe { albmerik_first_unlisted(state.as_ptr(), page.as_ptr(), page.len(), bits.as_ptr(), bits.len()) }
}

/// Whether block a's entry may be viewed: number 0, or 2, 4 or 9.
#[inline]
pub fn entry_answer(state: &State, page: &[u64], bits: &[u64], a: u64) -> Numbers {
    unsafe { albmerik_entry_answer(state.as_ptr(), page.as_ptr(), page.len(), bits.as_ptr(), bits.len(), a) }
}

/// The count of equal leading words of two entries.
#[inline]
pub fn compare_entries(state: &State, page: &[u64], bits: &[u64], a: u64, b: u64) -> Numbers {
    unsafe { albmerik_compare_entries(state.as_ptr(), page.as_ptr(), page.len(), bits.as_ptr(), bits.len(), a, b) }
}
