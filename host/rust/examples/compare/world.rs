//! A state, a page and a bitmap, each with guard words around it.

use albmerik::ffi::{State, STATE_WORDS};

/// The state's first words.
pub mod word {
    pub const N: usize = 0;
    pub const BW: usize = 1;
    pub const W: usize = 2;
    pub const S: usize = 3;
    pub const T: usize = 4;
    pub const ON: usize = 5;
}

/// The words of a worker's record.
pub mod field {
    pub const OWN: usize = 0;
    pub const GOT: usize = 1;
    pub const OPERATION: usize = 2;
    pub const STAGE: usize = 3;
    pub const TAG: usize = 4;
    pub const HAND: usize = 5;
    pub const SEEN: usize = 6;
    pub const SIGHTINGS: usize = 7;
}

/// Where a worker's field stands in the state.
pub fn place(worker: u64, field: usize) -> usize {
    6 + 8 * worker as usize + field
}

const GUARD: u64 = 0x6775_6172_6477_6F72;

/// Words to lend. A write past their ends shows in the guards.
#[derive(Clone, Debug)]
pub struct Lent(Vec<u64>);

impl Lent {
    pub fn new(words: &[u64]) -> Lent {
        Lent([&[GUARD], words, &[GUARD]].concat())
    }

    pub fn zeros(length: usize) -> Lent {
        let mut words = vec![0; length + 2];
        words[0] = GUARD;
        words[length + 1] = GUARD;
        Lent(words)
    }

    pub fn get(&self) -> &[u64] {
        &self.0[1..self.0.len() - 1]
    }

    pub fn get_mut(&mut self) -> &mut [u64] {
        let end = self.0.len() - 1;
        &mut self.0[1..end]
    }

    pub fn guards_stand(&self) -> bool {
        self.0[0] == GUARD && self.0[self.0.len() - 1] == GUARD
    }
}

/// What a call is handed.
#[derive(Clone, Debug)]
pub struct World {
    state: Lent,
    pub page: Lent,
    pub bits: Lent,
}

impl World {
    pub fn new(state: &State, page: Lent, bits: Lent) -> World {
        World { state: Lent::new(state), page, bits }
    }

    /// A world of n, bw, W with zeros in every other word; the lengths keep the page rules if n and bw do.
    pub fn empty(n: u64, bw: u64, w: u64) -> World {
        let mut state = [0; STATE_WORDS];
        state[..3].copy_from_slice(&[n, bw, w]);
        let page = (n + 1) * bw;
        World::new(&state, Lent::zeros(page as usize), Lent::zeros(((n + 64) / 64) as usize))
    }

    pub fn state(&self) -> &State {
        self.state.get().try_into().expect("a state has 70 words")
    }

    pub fn state_mut(&mut self) -> &mut State {
        self.state.get_mut().try_into().expect("a state has 70 words")
    }

    /// The three lent parts at once.
    pub fn parts(&mut self) -> (&mut State, &mut [u64], &mut [u64]) {
        let state = self.state.get_mut().try_into().expect("a state has 70 words");
        (state, self.page.get_mut(), self.bits.get_mut())
    }

    pub fn guards_stand(&self) -> bool {
        self.state.guards_stand() && self.page.guards_stand() && self.bits.guards_stand()
    }

    pub fn copy_from(&mut self, other: &World) {
        self.state.0.clone_from(&other.state.0);
        self.page.0.clone_from(&other.page.0);
        self.bits.0.clone_from(&other.bits.0);
    }

    pub fn n(&self) -> u64 {
        self.state()[word::N]
    }

    pub fn bw(&self) -> u64 {
        self.state()[word::BW]
    }

    pub fn w(&self) -> u64 {
        self.state()[word::W]
    }

    pub fn field(&self, worker: u64, field: usize) -> u64 {
        self.state()[place(worker, field)]
    }

    pub fn set_field(&mut self, worker: u64, field: usize, to: u64) {
        self.state_mut()[place(worker, field)] = to;
    }

    /// A block's address, for any words in n and bw.
    pub fn address(&self, block: u64) -> u64 {
        block.wrapping_mul(8).wrapping_mul(self.bw())
    }

    /// Whether the bitmap has the block's bit set; false past its end.
    pub fn listed(&self, block: u64) -> bool {
        let word = self.bits.get().get((block / 64) as usize);
        word.is_some_and(|word| (word >> (block % 64)) & 1 == 1)
    }

    pub fn set_bit(&mut self, block: u64) {
        self.bits.get_mut()[(block / 64) as usize] |= 1 << (block % 64);
    }

    /// Writes a block's link, if the page has the word.
    pub fn set_link(&mut self, block: u64, to: u64) {
        let place = block.wrapping_mul(self.bw()) as usize;
        if let Some(word) = self.page.get_mut().get_mut(place) {
            *word = to;
        }
    }
}
