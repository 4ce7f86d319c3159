//! The three that are timed: ordinary Rust, the archive's run of events, and one call of the archive for each event.

use albmerik::ffi::{self, Numbers, State, STATE_WORDS};

use crate::mixes::{BW, N, ROUND, W};
use crate::ordinary::Machine;

#[derive(Clone, Copy, Debug, PartialEq)]
pub enum Engine {
    Ordinary,
    Events,
    Calls,
}

pub const ENGINES: [Engine; 3] = [Engine::Ordinary, Engine::Events, Engine::Calls];

/// An engine with its state, page and bitmap, and the answers so far.
pub struct Run {
    engine: Engine,
    machine: Machine,
    state: State,
    page: Vec<u64>,
    bits: Vec<u64>,
    pub answers: Vec<u64>,
}

impl Run {
    /// A fresh start, with room for the answers of so many events.
    pub fn fresh(engine: Engine, count: usize) -> Run {
        let page = vec![0; ((N + 1) * BW) as usize];
        let mut bits = vec![0; ((N + 64) / 64) as usize];
        let mut state = [0; STATE_WORDS];
        assert_eq!(ffi::fresh(&mut state, &page, &mut bits, N, BW, W).number, 0);
        Run { engine, machine: Machine::fresh(N, BW, W), state, page, bits, answers: vec![0; 2 * count] }
    }

    /// Some of the events, whose answers begin at this event's place; in rounds where own is handed to got after each.
    pub fn part(&mut self, events: &[u64], first: usize, hands_over: bool) {
        if !hands_over {
            return self.round(events, first);
        }
        for (place, round) in events.chunks(5 * ROUND).enumerate() {
            self.round(round, first + place * ROUND);
            self.hand_over();
        }
    }

    /// Where got is empty, own becomes got. The state's words are the host's own.
    fn hand_over(&mut self) {
        if self.engine == Engine::Ordinary {
            return self.machine.hand_over();
        }
        for record in self.state[6..].chunks_exact_mut(8).filter(|record| record[1] == 0) {
            record.swap(0, 1);
        }
    }

    fn round(&mut self, events: &[u64], first: usize) {
        let Run { engine, machine, state, page, bits, answers } = self;
        let answers = &mut answers[2 * first..];
        let whole = match engine {
            Engine::Ordinary => measured_ordinary(machine, page, bits, events, answers),
            Engine::Events => measured_events(state, page, bits, events, answers),
            Engine::Calls => measured_calls(state, page, bits, events, answers),
        };
        assert_eq!(whole, Numbers { number: 0, value: events.len() as u64 / 5 });
    }

    /// Whether two runs were answered alike and left the same page and bitmap.
    pub fn agrees(&self, other: &Run) -> bool {
        self.answers == other.answers && self.page == other.page && self.bits == other.bits
    }
}

// callgrind counts inside the functions named measured_*.

#[inline(never)]
fn measured_ordinary(
    machine: &mut Machine,
    page: &mut [u64],
    bits: &mut [u64],
    events: &[u64],
    answers: &mut [u64],
) -> Numbers {
    machine.events(page, bits, events, answers)
}

#[inline(never)]
fn measured_events(
    state: &mut State,
    page: &mut [u64],
    bits: &mut [u64],
    events: &[u64],
    answers: &mut [u64],
) -> Numbers {
    ffi::events(state, page, bits, events, answers)
}

#[inline(never)]
fn measured_calls(
    state: &mut State,
    page: &mut [u64],
    bits: &mut [u64],
    events: &[u64],
    answers: &mut [u64],
) -> Numbers {
    for (event, answer) in events.chunks_exact(5).zip(answers.chunks_exact_mut(2)) {
        let given = match event[0] {
            1 => ffi::request(state, page, bits, event[1], event[2], event[3], event[4]),
            _ => ffi::make_move(state, page, bits, event[1], event[2]),
        };
        answer[0] = given.number;
        answer[1] = given.value;
    }
    Numbers { number: 0, value: events.len() as u64 / 5 }
}
