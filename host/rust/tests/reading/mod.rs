//! A second reading of document 01 (docs/RULES.md) in plain Rust, written from the paper alone.
//!
//! It shares nothing with the proved crates, so that the archive can be held against it. It is made to be read beside
//! the paper, not to be fast: tests first, in the order of the paper's numbers, then the change.

// Each program that includes this module uses a part of it.
#![allow(dead_code)]

mod events;
mod moves;
mod readers;
mod requests;

/// The words of a state: n, bw, W, S, T, on, then eight words for each of eight workers.
pub const STATE_WORDS: usize = 70;

/// A worker's record (document 01, The page). An operation under way is the request's number, 0 is idle.
#[derive(Clone, Copy, Default, Debug, PartialEq, Eq)]
pub struct Worker {
    pub own: u64,
    pub got: u64,
    pub operation: u64,
    pub stage: u64,
    pub tag: u64,
    pub hand: u64,
    pub seen: u64,
    pub sightings: u64,
}

/// The stages of a move, by the numbers that docs/DECISIONS.md gives them; 0 is none.
pub mod stage {
    pub const LOAD: u64 = 1;
    pub const WRITE: u64 = 2;
    pub const EXCHANGE: u64 = 3;
    pub const SWAP: u64 = 4;
    pub const MASK: u64 = 5;
}

/// A number and a value.
#[derive(Clone, Copy, Debug, PartialEq, Eq)]
pub struct Answer {
    pub number: u64,
    pub value: u64,
}

pub fn done(value: u64) -> Answer {
    Answer { number: 0, value }
}

pub fn under_way() -> Answer {
    Answer { number: 1, value: 0 }
}

/// A refusal has value 0.
pub fn refused(number: u64) -> Answer {
    Answer { number, value: 0 }
}

/// The part of a tagged word that is an address.
pub fn address_part(word: u64) -> u64 {
    word - word % 4
}

/// The part of a tagged word that is a tag, 0 to 3.
pub fn tag_part(word: u64) -> u64 {
    word % 4
}

/// The state, the page and the bitmap.
#[derive(Clone, Debug, PartialEq, Eq)]
pub struct Reading {
    pub n: u64,
    pub bw: u64,
    pub w: u64,
    pub s: u64,
    pub t: u64,
    /// Any nonzero word means on; a call that does something leaves 0 or 1.
    pub on: u64,
    pub workers: [Worker; 8],
    pub page: Vec<u64>,
    pub bits: Vec<u64>,
    /// The sighting that ends request 11: the fifth. Another number plants a difference.
    pub last_sighting: u64,
}

impl Reading {
    /// A state of any 70 words over any page and bitmap.
    pub fn of(state: &[u64; STATE_WORDS], page: Vec<u64>, bits: Vec<u64>) -> Reading {
        let mut workers = [Worker::default(); 8];
        for (worker, words) in workers.iter_mut().zip(state[6..].chunks_exact(8)) {
            *worker = Worker {
                own: words[0],
                got: words[1],
                operation: words[2],
                stage: words[3],
                tag: words[4],
                hand: words[5],
                seen: words[6],
                sightings: words[7],
            };
        }
        let [n, bw, w, s, t, on, ..] = *state;
        Reading { n, bw, w, s, t, on, workers, page, bits, last_sighting: 5 }
    }

    /// The 70 words.
    pub fn state(&self) -> [u64; STATE_WORDS] {
        let mut state = [0; STATE_WORDS];
        state[..6].copy_from_slice(&[self.n, self.bw, self.w, self.s, self.t, self.on]);
        for (worker, words) in self.workers.iter().zip(state[6..].chunks_exact_mut(8)) {
            words.copy_from_slice(&[
                worker.own,
                worker.got,
                worker.operation,
                worker.stage,
                worker.tag,
                worker.hand,
                worker.seen,
                worker.sightings,
            ]);
        }
        state
    }

    /// A fresh start: no bit set, no list, T off, nobody busy; the page is left alone. Refused, it is the state of zeros.
    pub fn fresh(&mut self, n: u64, bw: u64, w: u64) -> Answer {
        (self.s, self.t, self.on) = (0, 0, 0);
        self.workers = [Worker::default(); 8];
        (self.n, self.bw, self.w) = (n, bw, w);
        if !self.page_rules_hold() {
            (self.n, self.bw, self.w) = (0, 0, 0);
            return refused(2);
        }
        self.bits.fill(0);
        done(0)
    }

    /// Switch on: T becomes 0, value 0.
    pub fn switch_on(&mut self) -> Answer {
        if !self.page_rules_hold() {
            return refused(2);
        }
        if self.on != 0 {
            return refused(7);
        }
        (self.t, self.on) = (0, 1);
        done(0)
    }

    /// T goes off: its tag is told, and its word is 0.
    pub fn switch_off(&mut self) -> Answer {
        if !self.page_rules_hold() {
            return refused(2);
        }
        if self.workers[..self.w as usize].iter().any(|worker| worker.operation != 0) {
            return refused(5);
        }
        if self.on == 0 {
            return refused(7);
        }
        if address_part(self.t) != 0 {
            return refused(8);
        }
        let tag = tag_part(self.t);
        (self.t, self.on) = (0, 0);
        done(tag)
    }

    /// Something was done, so the host finds 0 or 1 in the word `on`.
    fn note_on(&mut self) {
        self.on = u64::from(self.on != 0);
    }

    /// n, bw, W and both slice lengths keep the page rules.
    pub fn page_rules_hold(&self) -> bool {
        self.n <= 4095
            && (1..=64).contains(&self.bw)
            && (1..=8).contains(&self.w)
            && self.page.len() as u64 == (self.n + 1) * self.bw
            && self.bits.len() as u64 == (self.n + 64) / 64
    }

    /// Where a block begins, in words; eight times that is its address.
    fn address(&self, block: u64) -> u64 {
        8 * self.bw * block
    }

    /// The block at a good address; 0 for address 0.
    fn block_at(&self, address: u64) -> u64 {
        address / (8 * self.bw)
    }

    fn is_block(&self, block: u64) -> bool {
        (1..=self.n).contains(&block)
    }

    /// A good head is the address of one of the n blocks.
    fn good(&self, head: u64) -> bool {
        head.is_multiple_of(8 * self.bw) && head >= 8 * self.bw && head <= 8 * self.bw * self.n
    }

    /// A sound head is 0 or the address of a listed block.
    fn sound(&self, head: u64) -> bool {
        head == 0 || (self.good(head) && self.listed(self.block_at(head)))
    }

    /// The bit of a block: 64 to a word, the lowest first.
    fn listed(&self, block: u64) -> bool {
        (self.bits[(block / 64) as usize] >> (block % 64)) & 1 == 1
    }

    fn set_bit(&mut self, block: u64) {
        self.bits[(block / 64) as usize] |= 1 << (block % 64);
    }

    fn clear_bit(&mut self, block: u64) {
        self.bits[(block / 64) as usize] &= !(1 << (block % 64));
    }

    /// A block's first word.
    fn link(&self, block: u64) -> u64 {
        self.page[(block * self.bw) as usize]
    }

    fn set_link(&mut self, block: u64, word: u64) {
        self.page[(block * self.bw) as usize] = word;
    }

    /// The blocks from a head to 0, in order; none where the walk meets what is not sound, or does not end with n blocks.
    fn walk(&self, head: u64) -> Option<Vec<u64>> {
        let mut met = Vec::new();
        let mut at = head;
        while at != 0 {
            if !self.sound(at) || met.len() as u64 == self.n {
                return None;
            }
            met.push(self.block_at(at));
            at = self.link(self.block_at(at));
        }
        Some(met)
    }
}
