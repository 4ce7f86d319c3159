//! The kinds of case. A scene makes a world and makes calls to it; each call is a case.

use albmerik::ffi::{Numbers, STATE_WORDS};

use crate::batches;
use crate::both::Both;
use crate::build::{small_numbers, sound_world, workers};
use crate::calls::{any_call, events, fresh, make_move, request, Call};
use crate::coverage::Coverage;
use crate::damage::{damage, near_address, near_number};
use crate::random::Random;
use crate::world::{field, Lent, World};

/// What the scenes share: the counts, and the sighting that ends request 11 in the reading.
pub struct Stage {
    pub coverage: Coverage,
    pub cases: u64,
    pub last_sighting: u64,
}

impl Stage {
    pub fn both(&self, world: World) -> Both {
        Both::new(world, self.last_sighting)
    }

    /// One case.
    pub fn call(&mut self, both: &mut Both, call: &Call) -> Result<(), String> {
        self.answered(both, call).map(|_| ())
    }

    /// One case of a run from a fresh page: "a state reached from a fresh one never gives 11".
    fn call_undamaged(&mut self, both: &mut Both, call: &Call) -> Result<(), String> {
        match self.answered(both, call)?.number {
            11 => {
                Err(format!("number 11 in a run from a fresh page\ncall: {call:?}\nstate: {:?}", both.before().state()))
            }
            _ => Ok(()),
        }
    }

    fn answered(&mut self, both: &mut Both, call: &Call) -> Result<Numbers, String> {
        self.cases += 1;
        let answer = both.call(call)?;
        self.coverage.note(both.before(), call, answer);
        Ok(answer)
    }

    pub fn any_calls(&mut self, random: &mut Random, both: &mut Both, count: u64) -> Result<(), String> {
        for _ in 0..count {
            let call = any_call(random, &both.archive);
            self.call(both, &call)?;
        }
        Ok(())
    }
}

pub type Run = fn(&mut Stage, &mut Random) -> Result<(), String>;

/// Each kind with its name and how often it comes.
pub const SCENES: [(&str, u64, Run); 11] = [
    ("runs from a fresh page", 180, runs),
    ("long runs", 1, long_runs),
    ("sound states", 600, sound_states),
    ("damaged states", 2000, damaged_states),
    ("operations and stages", 12, stages),
    ("random words", 200, random_words),
    ("numbers at their limits", 30, limits),
    ("lengths off by one", 40, lengths),
    ("arguments at their limits", 2, arguments),
    ("batches against single calls", 100, batches::batches),
    ("large pages", 2, large_pages),
];

/// A page with any words, a bitmap with any, and a fresh start.
fn started(stage: &mut Stage, random: &mut Random, n: u64, bw: u64) -> Result<Both, String> {
    let w = workers(random);
    let mut world = World::empty(n, bw, w);
    let (state, page, bits) = world.parts();
    state.iter_mut().for_each(|word| *word = random.word());
    page.iter_mut().for_each(|word| *word = random.below(1 << 12));
    bits.iter_mut().for_each(|word| *word = random.word());
    let mut both = stage.both(world);
    stage.call(&mut both, &Call::Fresh { n, bw, w })?;
    if !random.once_in(4) {
        stage.call(&mut both, &Call::On)?;
    }
    Ok(both)
}

fn runs(stage: &mut Stage, random: &mut Random) -> Result<(), String> {
    let (n, bw) = small_numbers(random);
    let mut both = started(stage, random, n, bw)?;
    for _ in 0..random.between(1, 60) {
        let call = any_call(random, &both.archive);
        stage.call_undamaged(&mut both, &call)?;
    }
    Ok(())
}

/// Thousands of requests and moves on one page, which is never started anew.
fn long_runs(stage: &mut Stage, random: &mut Random) -> Result<(), String> {
    let (n, bw) = small_numbers(random);
    let mut both = started(stage, random, n, bw)?;
    for _ in 0..random.between(1000, 4000) {
        let call = match random.below(100) {
            0 => Call::On,
            1 => Call::Off,
            2 => Call::ListedCount,
            3..=40 => request(random, &both.archive),
            _ => make_move(random, &both.archive),
        };
        stage.call_undamaged(&mut both, &call)?;
    }
    Ok(())
}

fn sound_states(stage: &mut Stage, random: &mut Random) -> Result<(), String> {
    let (n, bw) = small_numbers(random);
    let w = workers(random);
    let mut both = stage.both(sound_world(random, n, bw, w));
    let count = random.between(1, 8);
    stage.any_calls(random, &mut both, count)
}

fn damaged_states(stage: &mut Stage, random: &mut Random) -> Result<(), String> {
    let (n, bw) = small_numbers(random);
    // With few workers the damage and the calls meet more often.
    let w = if random.once_in(3) { workers(random) } else { random.between(1, 2) };
    let mut world = sound_world(random, n, bw, w);
    for _ in 0..random.between(1, 4) {
        damage(random, &mut world);
    }
    let mut both = stage.both(world);
    let count = random.between(1, 6);
    stage.any_calls(random, &mut both, count)
}

/// Every operation with every stage, those that no rule pairs among them.
fn stages(stage: &mut Stage, random: &mut Random) -> Result<(), String> {
    let (n, bw) = small_numbers(random);
    let w = workers(random);
    let world = sound_world(random, n, bw, w);
    let worker = random.below(w);
    for operation in 5..=13 {
        for place in 0..=6 {
            let mut world = world.clone();
            world.set_field(worker, field::OPERATION, operation);
            world.set_field(worker, field::STAGE, place);
            if random.once_in(2) {
                world.set_field(worker, field::GOT, 0);
            }
            let mut both = stage.both(world);
            stage.call(&mut both, &Call::Move { worker, flag: random.below(2) })?;
        }
    }
    Ok(())
}

/// n, bw and W keep the rules; every other word is any word or nearly an address.
fn random_words(stage: &mut Stage, random: &mut Random) -> Result<(), String> {
    let (n, bw) = small_numbers(random);
    let mut world = World::empty(n, bw, workers(random));
    for place in 3..STATE_WORDS {
        let word = match random.below(3) {
            0 => near_address(random, &world),
            1 => near_number(random, 13),
            _ => 0,
        };
        world.state_mut()[place] = word;
    }
    for place in 0..world.page.get().len() {
        world.page.get_mut()[place] = near_address(random, &world);
    }
    for word in world.bits.get_mut() {
        *word = random.word() | random.word();
    }
    let mut both = stage.both(world);
    let count = random.between(1, 6);
    stage.any_calls(random, &mut both, count)
}

/// Every function once.
fn every_call(stage: &mut Stage, random: &mut Random, both: &mut Both) -> Result<(), String> {
    let world = &both.archive;
    let mut calls = vec![Call::On, Call::Off, Call::ListedCount, Call::FirstUnlisted];
    calls.push(Call::EntryAnswer { a: random.pick(&[0, 1, world.n(), world.n().wrapping_add(1)]) });
    calls.push(Call::CompareEntries { a: 1, b: random.pick(&[0, 1, world.n()]) });
    calls.push(make_move(random, world));
    calls.extend((1..=13).map(|code| Call::Request { worker: 0, code, a: 1, b: 1 }));
    calls.push(events(random, world, 2));
    calls.push(fresh(random, world));
    random.shuffle(&mut calls);
    calls.truncate(random.between(4, 23) as usize);
    calls.iter().try_for_each(|call| stage.call(both, call))
}

/// n, bw and W at their limits, one past, and where sums and products wrap.
fn limits(stage: &mut Stage, random: &mut Random) -> Result<(), String> {
    let large = random.once_in(12);
    let n = match random.below(8) {
        0 => random.pick(&[u64::MAX, u64::MAX - 63, 1 << 63, 1 << 61, (1 << 32) - 1]),
        1..=2 => random.pick(&[4095, 4096]),
        _ => random.pick(&[0, 1, 63, 64]),
    };
    let bw = match random.below(8) {
        0 => random.pick(&[u64::MAX, 1 << 63, 1 << 61, 1 << 32]),
        1..=3 if large || n < 4095 => random.pick(&[64, 65]),
        _ => random.pick(&[0, 1]),
    };
    let w = if random.once_in(3) { random.pick(&[0, 9, u64::MAX, 256 + 8]) } else { random.pick(&[1, 8]) };
    let wanted = n.wrapping_add(1).wrapping_mul(bw);
    let page = if wanted <= 4097 * 65 { wanted } else { random.below(3) };
    let wanted = n.wrapping_add(64) / 64;
    let bits = if wanted <= 65 { wanted } else { random.pick(&[0, 1, 64]) };
    let mut state = [0; STATE_WORDS];
    state[..3].copy_from_slice(&[n, bw, w]);
    let mut both = stage.both(World::new(&state, Lent::zeros(page as usize), Lent::zeros(bits as usize)));
    if random.once_in(2) {
        stage.call(&mut both, &Call::Fresh { n, bw, w })?;
    }
    every_call(stage, random, &mut both)
}

/// Slices a word too short or too long, and empty ones; or n or bw changed under them.
fn lengths(stage: &mut Stage, random: &mut Random) -> Result<(), String> {
    let (n, bw) = small_numbers(random);
    let w = workers(random);
    let mut world = sound_world(random, n, bw, w);
    let resized = |lent: &Lent, length: usize| {
        let mut words = lent.get().to_vec();
        words.resize(length, 0);
        Lent::new(&words)
    };
    let (page, bits) = (world.page.get().len(), world.bits.get().len());
    match random.below(10) {
        0 => world.page = resized(&world.page, page - 1),
        1 => world.page = resized(&world.page, page + 1),
        2 => world.page = resized(&world.page, 0),
        3 => world.bits = resized(&world.bits, bits - 1),
        4 => world.bits = resized(&world.bits, bits + 1),
        5 => world.bits = resized(&world.bits, 0),
        6 => world.state_mut()[0] = random.pick(&[n.wrapping_sub(1), n + 1, n + 64]),
        7 => world.state_mut()[1] = random.pick(&[bw - 1, bw + 1, 0]),
        8 => world.state_mut()[2] = random.pick(&[0, 9, u64::MAX]),
        // The same count of page words, cut otherwise.
        _ => world.state_mut()[..2].copy_from_slice(&[bw.wrapping_sub(1), n + 1]),
    }
    let mut both = stage.both(world);
    every_call(stage, random, &mut both)
}

/// Every code with every pair of arguments at 0, 1, n, n+1 and the largest word.
fn arguments(stage: &mut Stage, random: &mut Random) -> Result<(), String> {
    let (n, bw) = small_numbers(random);
    let w = workers(random);
    let mut world = sound_world(random, n, bw, w);
    let worker = random.below(w);
    if !random.once_in(4) {
        world.set_field(worker, field::OPERATION, 0);
    }
    let edges = [0, 1, 2, 3, 4, n, n + 1, u64::MAX];
    let mut both = stage.both(world.clone());
    for code in 0..=14 {
        for a in edges {
            for b in edges {
                stage.call(&mut both, &Call::Request { worker, code, a, b })?;
            }
            both = stage.both(world.clone());
        }
    }
    Ok(())
}

/// Pages at the limits of n, sound or damaged.
fn large_pages(stage: &mut Stage, random: &mut Random) -> Result<(), String> {
    let n = random.pick(&[4095, 4095, 4094, 4032, 4031, 2000]);
    let bw = random.pick(&[1, 1, 2, 3, 8, 64]);
    let mut world = sound_world(random, n, bw, 8);
    if random.once_in(2) {
        damage(random, &mut world);
    }
    let mut both = stage.both(world);
    let far = random.between(1000, n - 20);
    stage.call(&mut both, &Call::Request { worker: 0, code: 4, a: 1, b: far })?;
    stage.call(&mut both, &Call::Request { worker: 1, code: 4, a: random.between(1, n), b: random.between(1, 20) })?;
    stage.any_calls(random, &mut both, 20)?;
    let many = events(random, &both.archive, 2000);
    stage.call(&mut both, &many)?;
    stage.any_calls(random, &mut both, 20)?;
    stage.call(&mut both, &Call::Request { worker: 0, code: 5, a: 0, b: 0 })
}
