//! The calls, and random ones that suit the world as it is.

use crate::damage::near_number;
use crate::random::Random;
use crate::world::{field, word, World};

/// A call of the interface with what it is handed beside the world.
#[derive(Clone, Debug)]
pub enum Call {
    Fresh { n: u64, bw: u64, w: u64 },
    Request { worker: u64, code: u64, a: u64, b: u64 },
    Move { worker: u64, flag: u64 },
    On,
    Off,
    Events { events: Vec<u64>, answers: Vec<u64> },
    ListedCount,
    FirstUnlisted,
    EntryAnswer { a: u64 },
    CompareEntries { a: u64, b: u64 },
}

/// The calls' names, in the order of `Call::kind`.
pub const KINDS: [&str; 10] = [
    "fresh",
    "request",
    "move",
    "on",
    "off",
    "events",
    "listed_count",
    "first_unlisted",
    "entry_answer",
    "compare_entries",
];

impl Call {
    pub fn kind(&self) -> usize {
        match self {
            Call::Fresh { .. } => 0,
            Call::Request { .. } => 1,
            Call::Move { .. } => 2,
            Call::On => 3,
            Call::Off => 4,
            Call::Events { .. } => 5,
            Call::ListedCount => 6,
            Call::FirstUnlisted => 7,
            Call::EntryAnswer { .. } => 8,
            Call::CompareEntries { .. } => 9,
        }
    }
}

/// Any call; requests and moves most often.
pub fn any_call(random: &mut Random, world: &World) -> Call {
    match random.below(40) {
        0..=16 => request(random, world),
        // A move of an idle worker says little.
        17..=30 if random.once_in(6) || any_busy(world) => make_move(random, world),
        17..=30 => request(random, world),
        31 => Call::On,
        32 => Call::Off,
        33..=34 => {
            let count = random.below(12);
            events(random, world, count)
        }
        35 => Call::ListedCount,
        36 => Call::FirstUnlisted,
        37 => Call::EntryAnswer { a: block(random, world) },
        38 => Call::CompareEntries { a: block(random, world), b: block(random, world) },
        _ => fresh(random, world),
    }
}

/// Most often with the world's own numbers: others are refused by the lengths.
pub fn fresh(random: &mut Random, world: &World) -> Call {
    let [mut n, mut bw, mut w, ..] = *world.state();
    match random.below(12) {
        0 => n = near_number(random, 4095),
        1 => bw = near_number(random, 64),
        2 => w = near_number(random, 8),
        _ => {}
    }
    Call::Fresh { n, bw, w }
}

fn worker(random: &mut Random, world: &World) -> u64 {
    if random.once_in(5) {
        return near_number(random, world.w());
    }
    random.below(world.w().min(8))
}

fn any_busy(world: &World) -> bool {
    (0..world.w().min(8)).any(|worker| world.field(worker, field::OPERATION) != 0)
}

/// A worker with an operation under way, or an idle one; any if there is none.
fn worker_that(random: &mut Random, world: &World, busy: bool) -> u64 {
    let w = world.w().min(8);
    let first = random.below(w);
    let turns = (0..w).map(|step| (first + step) % w);
    turns.into_iter().find(|&worker| (world.field(worker, field::OPERATION) != 0) == busy).unwrap_or(first)
}

/// A block, most often an unlisted one; 0, 1, n, n+1 and any word among them.
fn block(random: &mut Random, world: &World) -> u64 {
    let n = world.n();
    if random.once_in(12) {
        return random.pick(&[0, 1, n, n.wrapping_add(1), u64::MAX, 1 << 63, 1 << 32, n.wrapping_add(64)]);
    }
    let mut found = random.below(n.min(1 << 20)) + 1;
    for _ in 0..random.below(6) {
        if !world.listed(found) {
            break;
        }
        found = random.below(n.min(1 << 20)) + 1;
    }
    found
}

pub fn request(random: &mut Random, world: &World) -> Call {
    let worker = if random.once_in(8) { worker(random, world) } else { worker_that(random, world, false) };
    let code = if random.once_in(30) {
        random.pick(&[0, 14, 15, 20, 255, 256, 257, 1 << 32, (1 << 32) + 1, u64::MAX])
    } else {
        random.between(1, 13)
    };
    let a = match code {
        10 if random.once_in(8) => near_number(random, 3),
        10 => random.below(4),
        _ => block(random, world),
    };
    let b = match random.below(16) {
        0 => random.pick(&[0, 1, world.n(), world.n().wrapping_add(1), u64::MAX, u64::MAX - 1]),
        1 => world.n().wrapping_sub(a).wrapping_add(1),
        2 => world.n().wrapping_sub(a).wrapping_add(2),
        3 => 0u64.wrapping_sub(a),
        4 => random.between(1, 70),
        _ => random.between(1, 3),
    };
    Call::Request { worker, code, a, b }
}

pub fn make_move(random: &mut Random, world: &World) -> Call {
    let worker = if random.once_in(16) { worker(random, world) } else { worker_that(random, world, true) };
    let flag = if random.once_in(5) { random.pick(&[1, 1, 2, 256, 1 << 32, 1 << 63, u64::MAX]) } else { 0 };
    Call::Move { worker, flag }
}

/// So many events over a world, and room for their answers; now and then a cut slice, too little room or more of it.
pub fn events(random: &mut Random, world: &World, count: u64) -> Call {
    let mut events = Vec::with_capacity(5 * count as usize);
    for _ in 0..count {
        events.extend(event(random, world));
    }
    let mut room = 2 * count;
    match random.below(16) {
        0 => {
            let cut = random.between(1, 4).min(events.len() as u64) as usize;
            events.truncate(events.len() - cut);
        }
        1 => events.extend((0..random.between(1, 4)).map(|_| 1)),
        2 => room = room.saturating_sub(random.between(1, 2)),
        3 => room += random.between(1, 3),
        4 => room = random.pick(&[0, 1]),
        _ => {}
    }
    let answers = (0..room).map(|place| 0xA000 + place).collect();
    Call::Events { events, answers }
}

/// The five words of an event.
fn event(random: &mut Random, world: &World) -> [u64; 5] {
    let call = match random.below(32) {
        0 => return [near_number(random, 4), random.below(9), random.below(14), random.below(9), random.below(3)],
        1 => Call::On,
        2 if world.state()[word::ON] != 0 => Call::Off,
        3..=16 => request(random, world),
        _ => make_move(random, world),
    };
    match call {
        Call::Request { worker, code, a, b } => [1, worker, code, a, b],
        // What a kind does not use is ignored.
        Call::Move { worker, flag } => [2, worker, flag, random.below(3), random.below(3)],
        Call::On => [3, random.below(10), random.below(3), 0, random.below(2)],
        _ => [4, random.below(10), random.below(3), 0, random.below(2)],
    }
}
