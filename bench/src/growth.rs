//! What one request costs as n grows: insert and pop stay flat, append and release grow with the list.

use std::time::Instant;

use albmerik::ffi::{self, State, STATE_WORDS};

use crate::mixes::{BW, W};

/// The sizes shown.
pub const SIZES: [u64; 4] = [63, 255, 1023, 4095];

/// Nanoseconds for one insert, pop, append and release on a page of n blocks, the last two of a list of n blocks.
pub fn costs(n: u64, repeats: usize) -> [f64; 4] {
    let mut best = [f64::MAX; 4];
    let mut page = vec![0; ((n + 1) * BW) as usize];
    let mut bits = vec![0; ((n + 64) / 64) as usize];
    for _ in 0..repeats {
        let mut state = [0; STATE_WORDS];
        assert_eq!(ffi::fresh(&mut state, &page, &mut bits, n, BW, W).number, 0);
        let mut note = |place: usize, nanoseconds: f64| best[place] = best[place].min(nanoseconds);
        note(0, timed(&mut state, &mut page, &mut bits, 1, n));
        note(1, timed(&mut state, &mut page, &mut bits, 2, n));
        assert_eq!(ffi::request(&mut state, &mut page, &mut bits, 0, 4, 1, n).value, n);
        // Own's list becomes got's, as a take would leave it.
        let (own, got) = (6, 7);
        (state[own], state[got]) = (0, state[own]);
        note(2, timed(&mut state, &mut page, &mut bits, 3, 1));
        note(3, timed(&mut state, &mut page, &mut bits, 5, 1));
        assert_eq!(bits.iter().sum::<u64>(), 0);
    }
    best
}

/// Nanoseconds for one of so many requests of worker 0, of blocks 1, 2, .. where they name one.
fn timed(state: &mut State, page: &mut [u64], bits: &mut [u64], code: u64, count: u64) -> f64 {
    let start = Instant::now();
    for block in 1..=count {
        let answer = ffi::request(state, page, bits, 0, code, block, 0);
        assert_eq!(answer.number, 0);
    }
    start.elapsed().as_secs_f64() * 1e9 / count as f64
}
