//! The archive's speed beside ordinary Rust, on the same events, page and bitmap, in one process.

mod engines;
mod growth;
mod mixes;
mod ordinary;

use std::process::exit;
use std::time::Instant;

use engines::{Engine, Run, ENGINES};
use mixes::{hands_over, mix, MIXES};

const HELP: &str = "bench times [REPEATS [PART]]  ns an event for each mix: ordinary, events, calls (best of REPEATS, 15; timed in parts of
                            PART events, the whole run unless given)
bench growth [REPEATS]      ns for one insert, pop, append and release on n = 63, 255, 1023, 4095
bench once ENGINE MIX       100,000 events of a mix (0 to 5) on one engine (0 ordinary, 1 events, 2 calls), for callgrind
bench mixes                 the mixes' names

Lines of numbers with tabs between them; bench/run makes a table of them.";

/// A million requests; moves are counted with them.
const EVENTS: usize = 1_000_000;
/// Fewer for callgrind, which is slow.
const COUNTED: usize = 100_000;

/// The best time of each engine on a mix, in nanoseconds an event. All must leave the same answers, page and bitmap.
///
/// A run is timed in parts of so many events, the engines in turn, and the best time of each part counts. The whole run is one
/// part unless told otherwise: short parts shut out other work on the machine, but each finds the caches as the others left
/// them, which may narrow the ratios.
fn times(kind: usize, repeats: usize, part: usize) -> [f64; 3] {
    let events = mix(kind, EVENTS);
    let mut best = [(); 3].map(|_| vec![f64::MAX; EVENTS.div_ceil(part)]);
    for _ in 0..repeats {
        let mut runs = ENGINES.map(|engine| Run::fresh(engine, EVENTS));
        for (place, events) in events.chunks(5 * part).enumerate() {
            for (run, best) in runs.iter_mut().zip(&mut best) {
                let start = Instant::now();
                run.part(events, place * part, hands_over(kind));
                best[place] = best[place].min(start.elapsed().as_secs_f64());
            }
        }
        for (run, engine) in runs.iter().zip(ENGINES) {
            if !run.agrees(&runs[0]) {
                eprintln!("bench: {engine:?} and ordinary Rust differ on the mix '{}'", MIXES[kind]);
                exit(1);
            }
        }
    }
    best.map(|parts| parts.iter().sum::<f64>() * 1e9 / EVENTS as f64)
}

fn once(engine: Engine, kind: usize) {
    let events = mix(kind, COUNTED);
    let mut run = Run::fresh(engine, COUNTED);
    run.part(&events, 0, hands_over(kind));
    println!("{}", run.answers.iter().sum::<u64>());
}

fn wrong(why: &str) -> ! {
    eprintln!("bench: {why}\n{HELP}");
    exit(2);
}

/// A word that must be a number below the bound.
fn number(word: Option<&String>, bound: usize) -> usize {
    let found = word.and_then(|word| word.parse().ok()).filter(|number| *number < bound);
    found.unwrap_or_else(|| wrong("a number is missing or too large"))
}

fn main() {
    let words: Vec<String> = std::env::args().skip(1).collect();
    let repeats = || if words.len() > 1 { number(words.get(1), 1 << 20).max(1) } else { 15 };
    let part = || if words.len() > 2 { number(words.get(2), EVENTS + 1).max(1) } else { EVENTS };
    match words.first().map(String::as_str) {
        Some("times") => {
            for (kind, name) in MIXES.iter().enumerate() {
                let [ordinary, events, calls] = times(kind, repeats(), part());
                println!("{name}\t{ordinary:.2}\t{events:.2}\t{calls:.2}");
            }
        }
        Some("growth") => {
            for n in growth::SIZES {
                let [insert, pop, append, release] = growth::costs(n, 20 * repeats());
                println!("{n}\t{insert:.1}\t{pop:.1}\t{append:.1}\t{release:.1}");
            }
        }
        Some("once") => once(ENGINES[number(words.get(1), 3)], number(words.get(2), MIXES.len())),
        Some("mixes") => println!("{}", MIXES.join("\n")),
        Some("--help" | "-h") => println!("{HELP}"),
        _ => wrong("times, growth, once or mixes?"),
    }
}
