//! Moves: one stage of the operation under way.

use super::stage::{EXCHANGE, LOAD, MASK, SWAP, WRITE};
use super::{address_part, done, refused, tag_part, under_way, Answer, Reading, Worker};

impl Reading {
    /// A move of a worker; 2, 3, 6 and 11 refuse it. The flag matters at an exchange alone.
    pub fn make_move(&mut self, worker: u64, flag: bool) -> Answer {
        if !self.page_rules_hold() {
            return refused(2);
        }
        if worker >= self.w {
            return refused(3);
        }
        let worker = worker as usize;
        let record = self.workers[worker];
        if record.operation == 0 {
            return refused(6);
        }
        if self.damaged_at_move(&record) {
            return refused(11);
        }
        self.note_on();
        match record.stage {
            LOAD => self.load(worker),
            WRITE => self.write(worker),
            EXCHANGE => self.exchange(worker, flag),
            SWAP => self.swap(worker),
            _ => self.mask(worker),
        }
    }

    /// Number 11 at a move.
    fn damaged_at_move(&self, record: &Worker) -> bool {
        let Worker { operation, stage, .. } = *record;
        let paired = match operation {
            6 | 8 => matches!(stage, LOAD | WRITE | EXCHANGE),
            7 => matches!(stage, LOAD | SWAP),
            9 => stage == MASK,
            10 | 11 => matches!(stage, LOAD | EXCHANGE),
            12 => stage == LOAD,
            _ => false,
        };
        !paired
            || (8..=12).contains(&operation) && self.on == 0
            || matches!(operation, 6 | 8) && !(self.is_block(record.hand) && self.listed(record.hand))
            || matches!(operation, 7 | 9) && record.got != 0
            || operation == 10 && record.tag > 3
            || operation == 11 && record.sightings > 4
            || self.words_damaged(record)
    }

    /// The word that a stage rests on: a write and an exchange on the word seen, which is 0 or leads to a block; the
    /// others on the head, which is sound. A word of S has no tag.
    fn words_damaged(&self, record: &Worker) -> bool {
        let on_shared = matches!(record.operation, 6 | 7);
        let tested = if matches!(record.stage, WRITE | EXCHANGE) { record.seen } else { self.head(record.operation) };
        if on_shared && tag_part(tested) != 0 {
            return true;
        }
        let address = address_part(tested);
        if matches!(record.stage, WRITE | EXCHANGE) {
            address != 0 && !self.good(address)
        } else {
            !self.sound(address)
        }
    }

    /// The head that an operation works on: S for 6 and 7, T for 8 to 12.
    fn head(&self, operation: u64) -> u64 {
        if matches!(operation, 6 | 7) {
            self.s
        } else {
            self.t
        }
    }

    /// A load behind which the operation goes on keeps the word that it saw.
    fn load(&mut self, worker: usize) -> Answer {
        let Worker { operation, sightings, .. } = self.workers[worker];
        let word = self.head(operation);
        let tag = tag_part(word);
        let mut sightings = sightings;
        let next = match operation {
            6 | 8 => WRITE,
            7 if word == 0 => return self.end(worker, 0),
            7 => SWAP,
            10 => EXCHANGE,
            11 if tag == 1 => {
                sightings += 1;
                if sightings >= self.last_sighting {
                    return self.end(worker, 0);
                }
                LOAD
            }
            11 if tag == 2 => EXCHANGE,
            11 => return self.end(worker, 1),
            // Request 12 waits while the tag is 1.
            _ if tag == 1 => LOAD,
            _ => return self.end(worker, tag),
        };
        let record = &mut self.workers[worker];
        record.seen = word;
        record.stage = next;
        record.sightings = sightings;
        under_way()
    }

    /// The link of the block in hand becomes the address seen, without its tag.
    fn write(&mut self, worker: usize) -> Answer {
        let Worker { hand, seen, .. } = self.workers[worker];
        self.set_link(hand, address_part(seen));
        self.workers[worker].stage = EXCHANGE;
        under_way()
    }

    /// An exchange fails by its flag, or where the head is not the word seen; then nothing but the stage changes.
    fn exchange(&mut self, worker: usize, flag: bool) -> Answer {
        let Worker { operation, tag, hand, seen, .. } = self.workers[worker];
        if flag || self.head(operation) != seen {
            self.workers[worker].stage = LOAD;
            return under_way();
        }
        let value = match operation {
            6 => {
                self.s = self.address(hand);
                0
            }
            8 => {
                self.t = self.address(hand) + tag_part(seen);
                tag_part(seen)
            }
            10 => {
                self.t = address_part(seen) + tag;
                tag_part(seen)
            }
            _ => {
                self.t = address_part(seen);
                1
            }
        };
        self.end(worker, value)
    }

    /// A take of S swaps it with 0; what was there is in got, and its front block is the value.
    fn swap(&mut self, worker: usize) -> Answer {
        let taken = self.s;
        self.s = 0;
        self.workers[worker].got = taken;
        self.end(worker, self.block_at(taken))
    }

    /// Take T: "T keeps only its tag, got gets the address part."
    fn mask(&mut self, worker: usize) -> Answer {
        let taken = address_part(self.t);
        self.t = tag_part(self.t);
        self.workers[worker].got = taken;
        self.end(worker, self.block_at(taken))
    }

    /// "An end sets them to 0": all record fields but own and got.
    fn end(&mut self, worker: usize, value: u64) -> Answer {
        let Worker { own, got, .. } = self.workers[worker];
        self.workers[worker] = Worker { own, got, ..Worker::default() };
        done(value)
    }
}
