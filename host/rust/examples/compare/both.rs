//! One call on the archive and on the second reading; every answer and every word must agree.

use std::fmt::Write;

use albmerik::ffi::{self, Numbers};

use crate::calls::Call;
use crate::reading::{Answer, Reading};
use crate::world::{Lent, World};

/// The archive's world, the reading's, and the world before the call, to be shown if they differ.
pub struct Both {
    pub archive: World,
    reading: Reading,
    before: World,
}

impl Both {
    pub fn new(world: World, last_sighting: u64) -> Both {
        let mut reading = Reading::of(world.state(), world.page.get().to_vec(), world.bits.get().to_vec());
        reading.last_sighting = last_sighting;
        Both { before: world.clone(), archive: world, reading }
    }

    /// The answer, or how the two differ.
    pub fn call(&mut self, call: &Call) -> Result<Numbers, String> {
        self.before.copy_from(&self.archive);
        let (here, here_answers) = on_archive(&mut self.archive, call);
        let (there, there_answers) = on_reading(&mut self.reading, call);
        let same = (here.number, here.value) == (there.number, there.value)
            && *self.archive.state() == self.reading.state()
            && self.archive.page.get() == self.reading.page
            && self.archive.bits.get() == self.reading.bits
            && self.archive.guards_stand()
            && here_answers.guards_stand()
            && here_answers.get() == there_answers;
        if same {
            return Ok(here);
        }
        Err(self.difference(call, here, &here_answers, there, &there_answers))
    }

    /// The world as it was before the last call.
    pub fn before(&self) -> &World {
        &self.before
    }

    fn difference(
        &self,
        call: &Call,
        here: Numbers,
        here_answers: &Lent,
        there: Answer,
        there_answers: &[u64],
    ) -> String {
        let mut text = String::new();
        let _ = writeln!(text, "call: {call:?}");
        let _ = writeln!(text, "archive: number {}, value {}", here.number, here.value);
        let _ = writeln!(text, "reading: number {}, value {}", there.number, there.value);
        words_apart(&mut text, "state", self.archive.state(), &self.reading.state());
        words_apart(&mut text, "page", self.archive.page.get(), &self.reading.page);
        words_apart(&mut text, "bitmap", self.archive.bits.get(), &self.reading.bits);
        words_apart(&mut text, "answers", here_answers.get(), there_answers);
        if !self.archive.guards_stand() || !here_answers.guards_stand() {
            let _ = writeln!(text, "the archive wrote past a slice");
        }
        let _ = writeln!(text, "before, state: {:?}", self.before.state());
        let _ = writeln!(text, "before, page of {} words: {}", self.before.page.get().len(), short(&self.before.page));
        let _ = write!(text, "before, bitmap of {} words: {}", self.before.bits.get().len(), short(&self.before.bits));
        text
    }
}

/// The first words that differ, by place.
fn words_apart(text: &mut String, what: &str, here: &[u64], there: &[u64]) {
    let apart = here.iter().zip(there).enumerate().filter(|(_, (left, right))| left != right);
    for (place, (left, right)) in apart.take(8) {
        let _ = writeln!(text, "{what} word {place}: archive {left}, reading {right}");
    }
}

/// Nonzero words as place: word, at most 200 of them.
fn short(words: &Lent) -> String {
    let set = words.get().iter().enumerate().filter(|(_, word)| **word != 0);
    set.take(200).map(|(place, word)| format!("{place}: {word}")).collect::<Vec<_>>().join(", ")
}

/// The call on the archive, and the words of answers that it leaves.
pub fn on_archive(world: &mut World, call: &Call) -> (Numbers, Lent) {
    let mut kept = Lent::zeros(0);
    let (state, page, bits) = world.parts();
    let answer = match *call {
        Call::Fresh { n, bw, w } => ffi::fresh(state, page, bits, n, bw, w),
        Call::Request { worker, code, a, b } => ffi::request(state, page, bits, worker, code, a, b),
        Call::Move { worker, flag } => ffi::make_move(state, page, bits, worker, flag),
        Call::On => ffi::on(state, page, bits),
        Call::Off => ffi::off(state, page, bits),
        Call::Events { ref events, ref answers } => {
            kept = Lent::new(answers);
            ffi::events(state, page, bits, events, kept.get_mut())
        }
        Call::ListedCount => ffi::listed_count(state, page, bits),
        Call::FirstUnlisted => ffi::first_unlisted(state, page, bits),
        Call::EntryAnswer { a } => ffi::entry_answer(state, page, bits, a),
        Call::CompareEntries { a, b } => ffi::compare_entries(state, page, bits, a, b),
    };
    (answer, kept)
}

fn on_reading(reading: &mut Reading, call: &Call) -> (Answer, Vec<u64>) {
    let mut kept = Vec::new();
    let answer = match *call {
        Call::Fresh { n, bw, w } => reading.fresh(n, bw, w),
        Call::Request { worker, code, a, b } => reading.request(worker, code, a, b),
        Call::Move { worker, flag } => reading.make_move(worker, flag != 0),
        Call::On => reading.switch_on(),
        Call::Off => reading.switch_off(),
        Call::Events { ref events, ref answers } => {
            kept.clone_from(answers);
            reading.events(events, &mut kept)
        }
        Call::ListedCount => reading.listed_count(),
        Call::FirstUnlisted => reading.first_unlisted(),
        Call::EntryAnswer { a } => reading.entry_answer(a),
        Call::CompareEntries { a, b } => reading.compare_entries(a, b),
    };
    (answer, kept)
}
