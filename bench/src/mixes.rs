//! The events that are timed, five words each, for n = 4,095 and eight workers.

pub const N: u64 = 4095;
pub const BW: u64 = 8;
pub const W: u64 = 8;

/// The mixes' names. The last two stand beside the limit: refusals alone, and pushes and takes with their moves, for which
/// ordinary Rust knows S alone.
pub const MIXES: [&str; 6] =
    ["predictable", "random", "append, extend", "append, extend, random", "refusals", "pushes, takes"];

/// Events of a round. After each round of a mix with appends, own becomes got where got is empty.
pub const ROUND: usize = 336;

/// Whether own is handed to got after each round, so that there is something to append.
pub fn hands_over(kind: usize) -> bool {
    kind == 2 || kind == 3
}

/// Random numbers that are the same each time (xorshift).
struct Random(u64);

impl Random {
    fn below(&mut self, bound: u64) -> u64 {
        self.0 ^= self.0 << 13;
        self.0 ^= self.0 >> 7;
        self.0 ^= self.0 << 17;
        (self.0 >> 11) % bound
    }

    fn block(&mut self) -> u64 {
        1 + self.below(N)
    }
}

struct Mix {
    events: Vec<u64>,
    random: Random,
}

/// So many events of a mix.
pub fn mix(kind: usize, count: usize) -> Vec<u64> {
    let mut mix = Mix { events: Vec::with_capacity(5 * count + 8192), random: Random(88_172_645_463_325_252) };
    while mix.events.len() < 5 * count {
        match kind {
            0 => mix.predictable(),
            1 => mix.random(),
            2 => mix.lists_in_turn(),
            3 => mix.lists_at_random(),
            4 => mix.refusals(),
            _ => mix.pushes(),
        }
    }
    mix.events.truncate(5 * count);
    mix.events
}

impl Mix {
    fn request(&mut self, worker: u64, code: u64, a: u64, b: u64) {
        self.events.extend([1, worker, code, a, b]);
    }

    fn moves(&mut self, worker: u64, count: usize) {
        for _ in 0..count {
            self.events.extend([2, worker, 0, 0, 0]);
        }
    }

    fn push(&mut self, worker: u64, block: u64) {
        self.request(worker, 6, block, 0);
        self.moves(worker, 3);
    }

    fn take_and_append(&mut self, worker: u64) {
        self.request(worker, 7, 0, 0);
        self.moves(worker, 2);
        self.request(worker, 3, 0, 0);
    }

    /// 512 inserts, then 512 pops, the workers in turn.
    fn predictable(&mut self) {
        let shift = self.events.len() as u64 / 5;
        for step in 0..512 {
            self.request(step % W, 1, 1 + (step * 7 + shift) % N, 0);
        }
        for step in 0..512 {
            self.request(step % W, 2, 0, 0);
        }
    }

    /// An insert or a pop, any worker, any block.
    fn random(&mut self) {
        let worker = self.random.below(W);
        if self.random.below(2) == 0 {
            let block = self.random.block();
            self.request(worker, 1, block, 0);
        } else {
            self.request(worker, 2, 0, 0);
        }
    }

    /// A round: what was handed over is appended, pops until all are empty, extends by 16, inserts, in turn.
    fn lists_in_turn(&mut self) {
        for worker in 0..W {
            self.request(worker, 3, 0, 0);
        }
        for step in 0..256 {
            self.request(step % W, 2, 0, 0);
        }
        for step in 0..W {
            self.request(step, 4, 1 + step * 16, 16);
        }
        for step in 0..64 {
            self.request(step % W, 1, 200 + step * 7, 0);
        }
    }

    /// The same requests in any order, any worker, any block.
    fn lists_at_random(&mut self) {
        let worker = self.random.below(W);
        let block = self.random.block();
        match self.random.below(16) {
            0 => {
                let count = 1 + self.random.below(8);
                self.request(worker, 4, block, count);
            }
            1 => self.request(worker, 3, 0, 0),
            2..=5 => self.request(worker, 1, block, 0),
            _ => self.request(worker, 2, 0, 0),
        }
    }

    /// Lists of eight pushed on S, taken and appended, then popped.
    fn pushes(&mut self) {
        for worker in 0..W {
            for step in 0..8 {
                self.push((worker + step) % W, 1000 + 64 * worker + 3 * step);
            }
            self.take_and_append(worker);
            for _ in 0..8 {
                self.request(worker, 2, 0, 0);
            }
        }
    }

    /// What is refused: no such worker, block or operation, nothing to pop, a bit that is set, a move of an idle worker.
    fn refusals(&mut self) {
        if self.events.is_empty() {
            self.request(0, 4, 1, 64);
        }
        let worker = 1 + self.random.below(W - 1);
        let block = 1 + self.random.below(64);
        match self.random.below(8) {
            0 => self.request(W + worker, 1, block, 0),
            1 => self.request(worker, 1, N + block, 0),
            2 => self.request(worker, 14, block, 0),
            3 => self.request(worker, 4, block, 8),
            4 => self.request(worker, 1, block, 0),
            5 => self.moves(worker, 1),
            _ => self.request(worker, 2, 0, 0),
        }
    }
}
