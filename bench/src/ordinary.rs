//! The same lists in ordinary safe Rust: the same page, bitmap, tests and answers, the state by `&mut`.
//!
//! Requests 1 to 4, and 6 and 7 with their moves: S alone, without the tests that T's word asks for. Other codes are not in
//! the mixes.

use albmerik::ffi::Numbers;

#[derive(Clone, Copy, Default)]
struct Worker {
    own: u64,
    got: u64,
    operation: u64,
    stage: Stage,
    hand: u64,
    seen: u64,
}

#[derive(Clone, Copy, Default, PartialEq)]
enum Stage {
    #[default]
    Load,
    Write,
    Exchange,
    Swap,
}

pub struct Machine {
    n: u64,
    bw: u64,
    w: u64,
    shared: u64,
    workers: [Worker; 8],
}

fn answer(number: u64, value: u64) -> Numbers {
    Numbers { number, value }
}

fn bit(bits: &[u64], block: u64) -> bool {
    bits[(block / 64) as usize] >> (block % 64) & 1 == 1
}

fn set_bit(bits: &mut [u64], block: u64) {
    bits[(block / 64) as usize] |= 1 << (block % 64);
}

fn clear_bit(bits: &mut [u64], block: u64) {
    bits[(block / 64) as usize] &= !(1 << (block % 64));
}

impl Machine {
    pub fn fresh(n: u64, bw: u64, w: u64) -> Machine {
        Machine { n, bw, w, shared: 0, workers: [Worker::default(); 8] }
    }

    /// Where got is empty, own becomes got.
    pub fn hand_over(&mut self) {
        for worker in self.workers.iter_mut().filter(|worker| worker.got == 0) {
            std::mem::swap(&mut worker.own, &mut worker.got);
        }
    }

    fn page_rules_hold(&self, page: &[u64], bits: &[u64]) -> bool {
        self.n <= 4095
            && (1..=64).contains(&self.bw)
            && (1..=8).contains(&self.w)
            && page.len() as u64 == (self.n + 1) * self.bw
            && bits.len() as u64 == (self.n + 64) / 64
    }

    fn address(&self, block: u64) -> u64 {
        8 * self.bw * block
    }

    /// The block of a good address.
    fn good(&self, head: u64) -> Option<u64> {
        let (block, rest) = (head / (8 * self.bw), head % (8 * self.bw));
        (rest == 0 && 1 <= block && block <= self.n).then_some(block)
    }

    /// The block of a good address with its bit set.
    fn listed(&self, bits: &[u64], head: u64) -> Option<u64> {
        self.good(head).filter(|&block| bit(bits, block))
    }

    fn sound(&self, bits: &[u64], head: u64) -> bool {
        head == 0 || self.listed(bits, head).is_some()
    }

    fn is_block(&self, block: u64) -> bool {
        (1..=self.n).contains(&block)
    }

    /// A run of events; the page rules are tested once, for a run cannot break them.
    #[inline(never)]
    pub fn events(&mut self, page: &mut [u64], bits: &mut [u64], events: &[u64], answers: &mut [u64]) -> Numbers {
        if !self.page_rules_hold(page, bits) {
            return answer(2, 0);
        }
        if !events.len().is_multiple_of(5) {
            return answer(4, 0);
        }
        if answers.len() < events.len() / 5 * 2 {
            return answer(10, 0);
        }
        for (event, place) in events.chunks_exact(5).zip(answers.chunks_exact_mut(2)) {
            let given = match event[0] {
                1 => self.decide(page, bits, event[1], event[2], event[3], event[4]),
                2 => self.step(page, bits, event[1], event[2] != 0),
                _ => answer(4, 0),
            };
            place[0] = given.number;
            place[1] = given.value;
        }
        answer(0, events.len() as u64 / 5)
    }

    fn decide(&mut self, page: &mut [u64], bits: &mut [u64], worker: u64, code: u64, a: u64, b: u64) -> Numbers {
        if worker >= self.w {
            return answer(3, 0);
        }
        let worker = worker as usize;
        match code {
            1 => self.insert(page, bits, worker, a),
            2 => self.pop(page, bits, worker),
            3 => self.append(page, bits, worker),
            4 => self.extend(page, bits, worker, a, b),
            6 => self.push(bits, worker, a),
            7 => self.take(worker),
            _ => answer(4, 0),
        }
    }

    fn insert(&mut self, page: &mut [u64], bits: &mut [u64], worker: usize, a: u64) -> Numbers {
        let own = self.workers[worker].own;
        if !self.is_block(a) {
            return answer(4, 0);
        }
        if self.workers[worker].operation != 0 {
            return answer(5, 0);
        }
        if bit(bits, a) {
            return answer(9, 0);
        }
        if !self.sound(bits, own) {
            return answer(11, 0);
        }
        page[(a * self.bw) as usize] = own;
        set_bit(bits, a);
        self.workers[worker].own = self.address(a);
        answer(0, 0)
    }

    fn pop(&mut self, page: &[u64], bits: &mut [u64], worker: usize) -> Numbers {
        let own = self.workers[worker].own;
        if self.workers[worker].operation != 0 {
            return answer(5, 0);
        }
        if own == 0 {
            return answer(10, 0);
        }
        let Some(front) = self.listed(bits, own) else { return answer(11, 0) };
        let link = page[(front * self.bw) as usize];
        if !self.sound(bits, link) {
            return answer(11, 0);
        }
        clear_bit(bits, front);
        self.workers[worker].own = link;
        answer(0, front)
    }

    fn append(&mut self, page: &mut [u64], bits: &[u64], worker: usize) -> Numbers {
        let Worker { own, got, operation, .. } = self.workers[worker];
        if operation != 0 {
            return answer(5, 0);
        }
        if got == 0 {
            return answer(0, 0);
        }
        if !self.sound(bits, own) {
            return answer(11, 0);
        }
        let (mut at, mut last, mut count) = (got, 0, 0);
        while at != 0 {
            let Some(block) = self.listed(bits, at) else { return answer(11, 0) };
            if count == self.n {
                return answer(11, 0);
            }
            count += 1;
            last = block;
            at = page[(block * self.bw) as usize];
        }
        page[(last * self.bw) as usize] = own;
        self.workers[worker].own = got;
        self.workers[worker].got = 0;
        answer(0, count)
    }

    fn extend(&mut self, page: &mut [u64], bits: &mut [u64], worker: usize, a: u64, b: u64) -> Numbers {
        let own = self.workers[worker].own;
        if !self.is_block(a) || b == 0 || b > self.n - a + 1 {
            return answer(4, 0);
        }
        if self.workers[worker].operation != 0 {
            return answer(5, 0);
        }
        if (a..a + b).any(|block| bit(bits, block)) {
            return answer(9, 0);
        }
        if !self.sound(bits, own) {
            return answer(11, 0);
        }
        let last = a + b - 1;
        for block in a..last {
            page[(block * self.bw) as usize] = self.address(block + 1);
            set_bit(bits, block);
        }
        page[(last * self.bw) as usize] = own;
        set_bit(bits, last);
        self.workers[worker].own = self.address(a);
        answer(0, b)
    }

    fn push(&mut self, bits: &mut [u64], worker: usize, a: u64) -> Numbers {
        let Worker { own, got, operation, .. } = self.workers[worker];
        if !self.is_block(a) {
            return answer(4, 0);
        }
        if operation != 0 {
            return answer(5, 0);
        }
        if bit(bits, a) {
            return answer(9, 0);
        }
        set_bit(bits, a);
        self.workers[worker] = Worker { own, got, operation: 6, hand: a, ..Worker::default() };
        answer(1, 0)
    }

    fn take(&mut self, worker: usize) -> Numbers {
        let Worker { own, got, operation, .. } = self.workers[worker];
        if operation != 0 {
            return answer(5, 0);
        }
        if got != 0 {
            return answer(8, 0);
        }
        self.workers[worker] = Worker { own, got, operation: 7, ..Worker::default() };
        answer(1, 0)
    }

    /// A move of a push or a take.
    fn step(&mut self, page: &mut [u64], bits: &[u64], worker: u64, flag: bool) -> Numbers {
        if worker >= self.w {
            return answer(3, 0);
        }
        let record = self.workers[worker as usize];
        match (record.operation, record.stage) {
            (0, _) => answer(6, 0),
            (6, _) if !self.is_block(record.hand) || !bit(bits, record.hand) => answer(11, 0),
            (7, _) if record.got != 0 => answer(11, 0),
            (_, Stage::Load | Stage::Swap) if !self.sound(bits, self.shared) => answer(11, 0),
            (_, Stage::Write | Stage::Exchange) if record.seen != 0 && self.good(record.seen).is_none() => {
                answer(11, 0)
            }
            _ => self.act(page, worker as usize, flag),
        }
    }

    fn act(&mut self, page: &mut [u64], worker: usize, flag: bool) -> Numbers {
        let shared = self.shared;
        let record = self.workers[worker];
        match record.stage {
            Stage::Load if record.operation == 7 && shared == 0 => return self.end(worker, 0, 0),
            Stage::Load => {
                let next = if record.operation == 6 { Stage::Write } else { Stage::Swap };
                self.workers[worker] = Worker { seen: shared, stage: next, ..record };
            }
            Stage::Write => {
                page[(record.hand * self.bw) as usize] = record.seen;
                self.workers[worker].stage = Stage::Exchange;
            }
            Stage::Exchange if flag || shared != record.seen => self.workers[worker].stage = Stage::Load,
            Stage::Exchange => {
                self.shared = self.address(record.hand);
                return self.end(worker, record.got, 0);
            }
            Stage::Swap => {
                self.shared = 0;
                return self.end(worker, shared, shared / (8 * self.bw));
            }
        }
        answer(1, 0)
    }

    fn end(&mut self, worker: usize, got: u64, value: u64) -> Numbers {
        let own = self.workers[worker].own;
        self.workers[worker] = Worker { own, got, ..Worker::default() };
        answer(0, value)
    }
}
