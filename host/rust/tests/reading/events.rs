//! A run of events (docs/DECISIONS.md, `events`): five words an event, two words an answer.

use super::{done, refused, Answer, Reading};

impl Reading {
    /// Runs every event in order and puts each answer in its place. Refused as a whole, it changes nothing.
    pub fn events(&mut self, events: &[u64], answers: &mut [u64]) -> Answer {
        if !self.page_rules_hold() {
            return refused(2);
        }
        if !events.len().is_multiple_of(5) {
            return refused(4);
        }
        let count = events.len() / 5;
        if answers.len() < 2 * count {
            return refused(10);
        }
        self.note_on();
        for (event, answer) in events.chunks_exact(5).zip(answers.chunks_exact_mut(2)) {
            let Answer { number, value } = self.event(event);
            answer.copy_from_slice(&[number, value]);
        }
        done(count as u64)
    }

    /// One event: kind, worker, code (a move's flag), a, b.
    fn event(&mut self, event: &[u64]) -> Answer {
        let [kind, worker, code, a, b] = *event else { unreachable!("an event is five words") };
        match kind {
            1 => self.request(worker, code, a, b),
            2 => self.make_move(worker, code != 0),
            3 => self.switch_on(),
            4 => self.switch_off(),
            _ => refused(4),
        }
    }
}
