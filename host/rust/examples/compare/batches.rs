//! A run of events in one call, against the same events one call at a time, and against the second reading.

use crate::both::on_archive;
use crate::build::{small_numbers, sound_world, workers};
use crate::calls::{make_move, request, Call};
use crate::damage::damage;
use crate::random::Random;
use crate::scenes::Stage;
use crate::world::{word, World};

/// Events that suit the world as each finds it, run singly; then all at once.
pub fn batches(stage: &mut Stage, random: &mut Random) -> Result<(), String> {
    let (n, bw) = small_numbers(random);
    let w = workers(random);
    let mut start = sound_world(random, n, bw, w);
    if random.once_in(3) {
        damage(random, &mut start);
    }
    let count = if random.once_in(40) { random.between(1000, 4000) } else { random.below(40) };
    let mut singly = start.clone();
    let (events, mut answers) = run_singly(random, &mut singly, count);
    let more = random.below(3);
    let room: Vec<u64> = (0..answers.len() as u64 + more).map(|place| 0xB000 + place).collect();
    answers.extend(&room[answers.len()..]);

    let call = Call::Events { events, answers: room };
    let mut both = stage.both(start.clone());
    stage.call(&mut both, &call)?;
    stage.coverage.events_in_batches += count;

    let (_, kept) = on_archive(&mut start, &call);
    // A run leaves 0 or 1 in the word `on`; refused single calls leave it as it was.
    let on = singly.state()[word::ON];
    singly.state_mut()[word::ON] = u64::from(on != 0);
    let same = kept.get() == answers
        && singly.state() == start.state()
        && singly.page.get() == start.page.get()
        && singly.bits.get() == start.bits.get();
    if same {
        Ok(())
    } else {
        Err(format!(
            "the events in one call and singly differ: {call:?}\nsingly: {answers:?}\nin one call: {:?}",
            kept.get()
        ))
    }
}

/// The events and their answers.
fn run_singly(random: &mut Random, world: &mut World, count: u64) -> (Vec<u64>, Vec<u64>) {
    let (mut events, mut answers) = (Vec::new(), Vec::new());
    for _ in 0..count {
        let call = match random.below(40) {
            0 => Call::On,
            1 => Call::Off,
            2 => {
                events.extend([random.pick(&[0, 5, 6, 257, u64::MAX]), 0, 1, 1, 1]);
                answers.extend([4, 0]);
                continue;
            }
            3..=18 => request(random, world),
            _ => make_move(random, world),
        };
        events.extend(match call {
            Call::Request { worker, code, a, b } => [1, worker, code, a, b],
            Call::Move { worker, flag } => [2, worker, flag, 7, 7],
            Call::On => [3, 7, 7, 7, 7],
            _ => [4, 7, 7, 7, 7],
        });
        let (answer, _) = on_archive(world, &call);
        answers.extend([answer.number, answer.value]);
    }
    (events, answers)
}
