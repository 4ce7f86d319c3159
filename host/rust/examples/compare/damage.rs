//! Damage: words that no run leads to, most of them nearly good.

use crate::random::Random;
use crate::world::{field, word, World};

/// A word that is an address, or nearly one.
pub fn near_address(random: &mut Random, world: &World) -> u64 {
    let n = world.n();
    let base = match random.below(8) {
        0 => 0,
        1 => world.address(n.wrapping_add(1)),
        2 => world.address(n),
        3 => world.address(1),
        4 => random.word(),
        _ => world.address(random.below(n.saturating_add(1))),
    };
    let off = random.pick(&[0, 0, 0, 0, 0, 1, 2, 3, 4, 8, u64::MAX, 1 << 63, 1 << 32, world.address(1) / 2]);
    base.wrapping_add(off)
}

/// A small number, a number at a limit, or any word.
pub fn near_number(random: &mut Random, limit: u64) -> u64 {
    match random.below(8) {
        0 => random.word(),
        1 => u64::MAX,
        2 => limit,
        3 => limit.wrapping_add(1),
        4 => 1 << random.below(64),
        _ => random.below(limit.saturating_add(2)),
    }
}

/// One damage.
pub fn damage(random: &mut Random, world: &mut World) {
    match random.below(12) {
        0..=2 => damage_head(random, world),
        3..=4 => damage_link(random, world),
        5 => damage_bits(random, world),
        6..=9 => damage_record(random, world),
        10 => world.state_mut()[word::ON] = random.pick(&[0, 1, 2, 256, 1 << 32, 1 << 63, u64::MAX]),
        _ => damage_anything(random, world),
    }
}

/// A worker that there is; now and then one of the records that belong to nobody.
fn some_worker(random: &mut Random, world: &World) -> u64 {
    if random.once_in(12) {
        random.below(8)
    } else {
        random.below(world.w().min(8))
    }
}

/// A block, most often a listed one.
fn listed_block(random: &mut Random, world: &World) -> u64 {
    let mut block = random.below(world.n().saturating_add(1));
    for _ in 0..8 {
        if world.listed(block) {
            break;
        }
        block = random.below(world.n().saturating_add(1));
    }
    block
}

fn damage_head(random: &mut Random, world: &mut World) {
    let to = near_address(random, world);
    match random.below(6) {
        0 => world.state_mut()[word::S] = to,
        1 => world.state_mut()[word::T] = to,
        2 => world.state_mut()[word::S] |= random.below(4),
        _ => {
            let worker = some_worker(random, world);
            world.set_field(worker, random.pick(&[field::OWN, field::GOT]), to);
        }
    }
}

/// A ring, a link into another list, a link with a tag, or a word that is no address.
fn damage_link(random: &mut Random, world: &mut World) {
    let block = listed_block(random, world);
    let to = match random.below(4) {
        0 => world.address(block),
        1 => world.address(listed_block(random, world)),
        _ => near_address(random, world),
    };
    world.set_link(block, to);
}

fn damage_bits(random: &mut Random, world: &mut World) {
    let bits = world.bits.get_mut();
    if bits.is_empty() {
        return;
    }
    let at = random.below(bits.len() as u64) as usize;
    match random.below(8) {
        0 => bits[at] = 0,
        1 => bits[at] = u64::MAX,
        2 => bits[at] = random.word(),
        _ => bits[at] ^= 1 << random.below(64),
    }
}

fn damage_record(random: &mut Random, world: &mut World) {
    let n = world.n();
    let worker = some_worker(random, world);
    let (place, to) = match random.below(8) {
        0 => (field::OPERATION, near_number(random, 13)),
        1 => (field::STAGE, near_number(random, 6)),
        2 => (field::TAG, near_number(random, 4)),
        3 | 4 => (field::HAND, near_number(random, n)),
        5 => (field::SIGHTINGS, near_number(random, 5)),
        _ => (field::SEEN, near_address(random, world)),
    };
    world.set_field(worker, place, to);
}

/// Any word of state, page or bitmap.
fn damage_anything(random: &mut Random, world: &mut World) {
    let to = if random.once_in(2) { random.word() } else { near_address(random, world) };
    let (state, page, bits) = world.parts();
    let part = match random.below(8) {
        0 => bits,
        1..=3 => page,
        // n, bw and W are left, or every call would be refused with 2.
        _ => &mut state[3..],
    };
    if !part.is_empty() {
        part[random.below(part.len() as u64) as usize] = to;
    }
}
