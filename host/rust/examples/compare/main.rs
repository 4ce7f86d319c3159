//! Compares the archive with the second reading of document 01, call by call and word by word.

mod batches;
mod both;
mod build;
mod calls;
mod coverage;
mod damage;
mod random;
#[path = "../../tests/reading/mod.rs"]
mod reading;
mod scenes;
mod world;

use std::io::{self, Write};
use std::process::ExitCode;

use coverage::Coverage;
use random::Random;
use scenes::{Stage, SCENES};

const HELP: &str = "compare [--cases N] [--seed S] [--plant]

Makes calls to the archive and to a plain second reading of document 01 (docs/RULES.md), and compares every answer and
every word of state, page, bitmap and answers after each. A call is a case. There are random runs from fresh pages, sound
and damaged states, numbers, lengths and arguments at their limits and past them, and runs of events.

  --cases N   at least so many cases (5000000)
  --seed S    the first scene's seed (1); the scenes after it have S+1, S+2, ..
  --plant     with a rule of the reading changed, to see that a difference is found

The tables tell how many cases of each kind there were and which answers. The last line is 'compare: N cases, 0 differ'.
At the first difference its seed, case and both results are printed, and the status is 1. It is also 1 if, in 100,000 cases
or more, an answer that the rules allow was met too seldom.";

/// From so many cases on, thin coverage is a fault.
const ENOUGH: u64 = 100_000;

struct Options {
    cases: u64,
    seed: u64,
    plant: bool,
}

/// The options, or what is wrong with them.
fn options() -> Result<Option<Options>, String> {
    let mut found = Options { cases: 5_000_000, seed: 1, plant: false };
    let mut words = std::env::args().skip(1);
    while let Some(word) = words.next() {
        let mut number = || {
            let given = words.next().ok_or(format!("{word} needs a number"))?;
            given.parse().map_err(|_| format!("{given} is no number"))
        };
        match word.as_str() {
            "--cases" => found.cases = number()?,
            "--seed" => found.seed = number()?,
            // The fourth sighting ends request 11.
            "--plant" => found.plant = true,
            "--help" | "-h" => return Ok(None),
            _ => return Err(format!("unknown option {word}")),
        }
    }
    Ok(Some(found))
}

/// Runs scenes until there are enough cases: the cases of each kind, or the first difference.
fn run(options: &Options, stage: &mut Stage) -> Result<[u64; SCENES.len()], String> {
    let all: u64 = SCENES.iter().map(|scene| scene.1).sum();
    let mut counts = [0; SCENES.len()];
    let mut seed = options.seed;
    while stage.cases < options.cases {
        let mut random = Random::new(seed);
        let mut left = random.below(all);
        let kind = SCENES.iter().position(|scene| {
            let here = left < scene.1;
            left = left.saturating_sub(scene.1);
            here
        });
        let kind = kind.expect("the scenes cover the range");
        let (name, _, scene) = SCENES[kind];
        let before = stage.cases;
        scene(stage, &mut random).map_err(|difference| {
            let case = stage.cases - before;
            format!("compare: a difference in '{name}', seed {seed}, case {case}; again: --seed {seed} --cases 1\n{difference}")
        })?;
        counts[kind] += stage.cases - before;
        seed = seed.wrapping_add(1);
    }
    Ok(counts)
}

/// The tables, what came too seldom, and the last line.
fn report(stage: &Stage, counts: &[u64], thin: &[String]) -> String {
    let mut lines = Vec::new();
    for (count, (name, ..)) in counts.iter().zip(SCENES) {
        lines.push(format!("{name:<34}{count:>9}"));
    }
    lines.push(format!("{:<34}{:>9}\n", "events inside batches", stage.coverage.events_in_batches));
    lines.push(stage.coverage.table());
    lines.extend(thin.iter().map(|line| format!("compare: too seldom: {line}")));
    lines.push(format!("compare: {} cases, 0 differ", stage.cases));
    lines.join("\n")
}

/// Prints a line; a reader who has gone away is no error.
fn say(text: &str) {
    let _ = writeln!(io::stdout(), "{text}");
}

fn main() -> ExitCode {
    let options = match options() {
        Ok(Some(options)) => options,
        Ok(None) => {
            say(HELP);
            return ExitCode::SUCCESS;
        }
        Err(wrong) => {
            eprintln!("compare: {wrong}; see --help");
            return ExitCode::from(2);
        }
    };
    let last_sighting = if options.plant { 4 } else { 5 };
    let mut stage = Stage { coverage: Coverage::new(), cases: 0, last_sighting };
    let counts = match run(&options, &mut stage) {
        Ok(counts) => counts,
        Err(difference) => {
            say(&format!("{difference}\ncompare: {} cases, 1 differs", stage.cases));
            return ExitCode::FAILURE;
        }
    };
    let thin = if stage.cases >= ENOUGH { stage.coverage.thin() } else { Vec::new() };
    say(&report(&stage, &counts, &thin));
    ExitCode::from(u8::from(!thin.is_empty()))
}
