//! Requests 1 to 13, decided by number.

use super::{done, refused, stage, under_way, Answer, Reading, Worker};

impl Reading {
    /// A request of a worker: refused by the smallest number that applies, or done, or started.
    pub fn request(&mut self, worker: u64, code: u64, a: u64, b: u64) -> Answer {
        if let Some(number) = self.request_refused(worker, code, a, b) {
            return refused(number);
        }
        self.note_on();
        let worker = worker as usize;
        match code {
            1 => self.insert(worker, a),
            2 => self.pop(worker),
            3 => self.append(worker),
            4 => self.extend(worker, a, b),
            5 => self.release(worker),
            13 => done(u64::from(self.workers[worker].own == 0)),
            _ => self.start(worker, code, a),
        }
    }

    /// The table of numbers, from 2 up.
    fn request_refused(&self, worker: u64, code: u64, a: u64, b: u64) -> Option<u64> {
        if !self.page_rules_hold() {
            return Some(2);
        }
        if worker >= self.w {
            return Some(3);
        }
        if !self.arguments_fit(code, a, b) {
            return Some(4);
        }
        let record = &self.workers[worker as usize];
        if record.operation != 0 {
            return Some(5);
        }
        if (8..=12).contains(&code) && self.on == 0 {
            return Some(7);
        }
        if (code == 7 || code == 9) && record.got != 0 {
            return Some(8);
        }
        if self.a_named_block_is_listed(code, a, b) {
            return Some(9);
        }
        if code == 2 && record.own == 0 {
            return Some(10);
        }
        if self.damaged_at_request(record, code) {
            return Some(11);
        }
        None
    }

    /// Number 4: no request has this number, or its block, run of blocks or tag is none.
    fn arguments_fit(&self, code: u64, a: u64, b: u64) -> bool {
        match code {
            1 | 6 | 8 => self.is_block(a),
            // The last block is a + b - 1; the sum is not formed, for b may be any word.
            4 => self.is_block(a) && b != 0 && b <= self.n - a + 1,
            10 => a <= 3,
            2 | 3 | 5 | 7 | 9 | 11 | 12 | 13 => true,
            _ => false,
        }
    }

    /// Number 9: a block that is named is listed already; of an extend, one at least.
    fn a_named_block_is_listed(&self, code: u64, a: u64, b: u64) -> bool {
        match code {
            1 | 6 | 8 => self.listed(a),
            4 => (a..a + b).any(|block| self.listed(block)),
            _ => false,
        }
    }

    /// Number 11 at a request.
    fn damaged_at_request(&self, record: &Worker, code: u64) -> bool {
        match code {
            1 | 4 => !self.sound(record.own),
            // Own is not empty here: that was number 10.
            2 => !self.sound(record.own) || !self.sound(self.link(self.block_at(record.own))),
            3 => record.got != 0 && (!self.sound(record.own) || self.walk(record.got).is_none()),
            5 => self.walk(record.own).is_none(),
            _ => false,
        }
    }

    /// 1. Block a becomes own's front; value 0.
    fn insert(&mut self, worker: usize, a: u64) -> Answer {
        self.set_link(a, self.workers[worker].own);
        self.set_bit(a);
        self.workers[worker].own = self.address(a);
        done(0)
    }

    /// 2. Own's front leaves it, and is the value; its bit is cleared, and the page stays.
    fn pop(&mut self, worker: usize) -> Answer {
        let front = self.block_at(self.workers[worker].own);
        self.workers[worker].own = self.link(front);
        self.clear_bit(front);
        done(front)
    }

    /// 3. The taken list goes before own, and its length is the value; got is empty then.
    fn append(&mut self, worker: usize) -> Answer {
        let Worker { own, got, .. } = self.workers[worker];
        if got == 0 {
            return done(0);
        }
        let blocks = self.walk(got).expect("damage was tested");
        let last = *blocks.last().expect("got is not empty");
        self.set_link(last, own);
        self.workers[worker].own = got;
        self.workers[worker].got = 0;
        done(blocks.len() as u64)
    }

    /// 4. The b blocks from a on go before own, ascending; the value is b.
    fn extend(&mut self, worker: usize, a: u64, b: u64) -> Answer {
        for block in (a..a + b).rev() {
            self.insert(worker, block);
        }
        done(b)
    }

    /// 5. Every block of own is unlisted, and own is empty; the value is how many there were.
    fn release(&mut self, worker: usize) -> Answer {
        let blocks = self.walk(self.workers[worker].own).expect("damage was tested");
        for &block in &blocks {
            self.clear_bit(block);
        }
        self.workers[worker].own = 0;
        done(blocks.len() as u64)
    }

    /// Requests 6 to 12: a start leaves own and got, and sets the other fields of the record.
    fn start(&mut self, worker: usize, code: u64, a: u64) -> Answer {
        let Worker { own, got, .. } = self.workers[worker];
        let mut record = Worker { own, got, operation: code, stage: stage::LOAD, ..Worker::default() };
        match code {
            6 | 8 => {
                self.set_bit(a);
                record.hand = a;
            }
            9 => record.stage = stage::MASK,
            10 => record.tag = a,
            _ => {}
        }
        self.workers[worker] = record;
        under_way()
    }
}
