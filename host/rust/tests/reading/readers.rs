//! The five readers, which change nothing.

use super::{done, refused, Answer, Reading};

impl Reading {
    /// How many of the blocks are listed.
    pub fn listed_count(&self) -> Answer {
        if !self.page_rules_hold() {
            return refused(2);
        }
        done((1..=self.n).filter(|&block| self.listed(block)).count() as u64)
    }

    /// The smallest block that is not listed; 10 where all are.
    pub fn first_unlisted(&self) -> Answer {
        if !self.page_rules_hold() {
            return refused(2);
        }
        match (1..=self.n).find(|&block| !self.listed(block)) {
            Some(block) => done(block),
            None => refused(10),
        }
    }

    /// The reader that tells why an entry view is empty: 2, 4 or 9.
    pub fn entry_answer(&self, a: u64) -> Answer {
        match self.entries_refused(&[a]) {
            Some(number) => refused(number),
            None => done(0),
        }
    }

    /// How many words of two entries agree before the first that differs.
    pub fn compare_entries(&self, a: u64, b: u64) -> Answer {
        if let Some(number) = self.entries_refused(&[a, b]) {
            return refused(number);
        }
        let pairs = self.entry(a).iter().zip(self.entry(b));
        done(pairs.take_while(|(left, right)| left == right).count() as u64)
    }

    /// The part of the page after a block's link word, bw-1 words; the block is one of 1 to n.
    fn entry(&self, block: u64) -> &[u64] {
        let start = (block * self.bw) as usize;
        &self.page[start + 1..start + self.bw as usize]
    }

    fn entries_refused(&self, blocks: &[u64]) -> Option<u64> {
        if !self.page_rules_hold() {
            return Some(2);
        }
        if blocks.iter().any(|&block| !self.is_block(block)) {
            return Some(4);
        }
        if blocks.iter().any(|&block| self.listed(block)) {
            return Some(9);
        }
        None
    }
}
