//! Worlds as a run leaves them: lists that run to 0, hands, operations at every stage.

use crate::random::Random;
use crate::world::{field, word, World};

/// n and bw of a page that is compared quickly, the limits of a bitmap word among them.
pub fn small_numbers(random: &mut Random) -> (u64, u64) {
    let n = match random.below(10) {
        0..=1 => random.below(6),
        2..=3 => random.pick(&[62, 63, 64, 65]),
        4 => random.pick(&[126, 127, 128, 129, 191, 192]),
        _ => random.between(4, 40),
    };
    let bw = match random.below(8) {
        0 => random.pick(&[63, 64]),
        1..=2 => 1,
        _ => random.between(2, 9),
    };
    (n, if n > 100 { bw.min(8) } else { bw })
}

pub fn workers(random: &mut Random) -> u64 {
    if random.once_in(3) {
        8
    } else {
        random.between(1, 8)
    }
}

/// A world with sound lists, hands and records.
pub fn sound_world(random: &mut Random, n: u64, bw: u64, w: u64) -> World {
    let mut world = World::empty(n, bw, w);
    fill(random, &mut world);
    let mut free: Vec<u64> = (1..=n).collect();
    random.shuffle(&mut free);
    let share = random.pick(&[0, 1, 2, 4, 4, 8, n]);
    let on = !random.once_in(4);
    world.state_mut()[word::ON] = if !on { 0 } else { random.pick(&[1, 1, 1, 1, 2, u64::MAX, 1 << 63]) };
    world.state_mut()[word::S] = list(random, &mut world, &mut free, share);
    if on {
        let head = list(random, &mut world, &mut free, share);
        world.state_mut()[word::T] = head + random.below(4);
    }
    for worker in 0..w {
        let own = list(random, &mut world, &mut free, share);
        let got = if random.once_in(2) { list(random, &mut world, &mut free, share) } else { 0 };
        world.set_field(worker, field::OWN, own);
        world.set_field(worker, field::GOT, got);
        if random.once_in(2) {
            let operation = random.between(6, if on { 12 } else { 7 });
            under_way(random, &mut world, &mut free, worker, operation);
        }
    }
    if random.once_in(4) {
        leftovers(random, &mut world);
    }
    world
}

/// Entries with words that are often equal, and links of unlisted blocks that mean nothing.
fn fill(random: &mut Random, world: &mut World) {
    let kind = random.below(3);
    for at in world.page.get_mut() {
        *at = match kind {
            0 => 0,
            1 => random.word() & 1,
            _ if random.once_in(8) => random.word(),
            _ => random.below(2000) * 8,
        };
    }
}

/// A list of up to so many of the free blocks; its head.
fn list(random: &mut Random, world: &mut World, free: &mut Vec<u64>, share: u64) -> u64 {
    let length = random.below(share + 1).min(free.len() as u64);
    let mut head = 0;
    for _ in 0..length {
        let block = free.pop().expect("there are so many");
        world.set_link(block, head);
        world.set_bit(block);
        head = world.address(block);
    }
    head
}

/// A worker's record with an operation at one of its stages.
pub fn under_way(random: &mut Random, world: &mut World, free: &mut Vec<u64>, worker: u64, operation: u64) {
    let stage = match operation {
        6 | 8 => random.between(1, 3),
        7 => random.pick(&[1, 4]),
        9 => 5,
        10 | 11 => random.pick(&[1, 3]),
        _ => 1,
    };
    let seen = if matches!(stage, 2..=4) || random.once_in(3) { seen_word(random, world, operation) } else { 0 };
    match operation {
        6 | 8 => {
            let Some(hand) = free.pop() else { return };
            world.set_bit(hand);
            world.set_field(worker, field::HAND, hand);
            if stage == 3 {
                world.set_link(hand, seen - seen % 4);
            }
        }
        7 | 9 => world.set_field(worker, field::GOT, 0),
        10 => world.set_field(worker, field::TAG, random.below(4)),
        11 => world.set_field(worker, field::SIGHTINGS, random.below(5)),
        _ => {}
    }
    world.set_field(worker, field::OPERATION, operation);
    world.set_field(worker, field::STAGE, stage);
    world.set_field(worker, field::SEEN, seen);
}

/// The head as it is, or as it was some time ago.
fn seen_word(random: &mut Random, world: &World, operation: u64) -> u64 {
    let on_shared = operation < 8;
    match random.below(8) {
        0 => 0,
        1 => {
            let tag = if on_shared { 0 } else { random.below(4) };
            world.address(random.below(world.n() + 1)) + tag
        }
        _ => world.state()[if on_shared { word::S } else { word::T }],
    }
}

/// Words that belong to nobody: bit 0, bits above n, records from W on.
fn leftovers(random: &mut Random, world: &mut World) {
    let (n, w) = (world.n(), world.w());
    let bits = world.bits.get_mut();
    if random.once_in(2) {
        bits[0] |= 1;
    }
    let last = bits.len() - 1;
    if n % 64 != 63 && random.once_in(2) {
        bits[last] |= random.word() & (u64::MAX << (n % 64 + 1));
    }
    for worker in w..8 {
        for place in 0..8 {
            let to = if random.once_in(2) { random.word() } else { random.below(14) };
            world.set_field(worker, place, to);
        }
    }
}
