//! Which answers were met how often: a row for each call, request and stage, a column for each number.

use std::fmt::Write;

use albmerik::ffi::Numbers;

use crate::calls::{Call, KINDS};
use crate::world::{field, World};

const NUMBERS: usize = 12;
const STAGES: [&str; 7] = ["no stage", "load", "write", "exchange", "swap", "mask", "unknown stage"];
const REQUESTS: usize = 15;
const OPERATIONS: usize = 8;

/// Fewer than this many are too few to be a test.
const FEW: u64 = 20;

#[derive(Default)]
struct Row {
    name: String,
    counts: [u64; NUMBERS],
    /// The numbers that the rules let the row have.
    due: &'static [usize],
}

/// Rows: ten calls, requests 0 (unknown) to 13 with 14 for a worker that is none, then stages of operations.
pub struct Coverage {
    rows: Vec<Row>,
    pub events_in_batches: u64,
}

/// The numbers due to a call by its kind; requests and moves have rows of their own.
const CALLS_DUE: [&[usize]; 10] = [
    &[0, 2],
    &[],
    &[],
    &[0, 2, 7],
    &[0, 2, 5, 7, 8],
    &[0, 2, 4, 10],
    &[0, 2],
    &[0, 2, 10],
    &[0, 2, 4, 9],
    &[0, 2, 4, 9],
];

/// The numbers due to requests 0 (an unknown code) to 13.
const REQUESTS_DUE: [&[usize]; 14] = [
    &[2, 3, 4],
    &[0, 2, 3, 4, 5, 9, 11],
    &[0, 2, 3, 5, 10, 11],
    &[0, 2, 3, 5, 11],
    &[0, 2, 3, 4, 5, 9, 11],
    &[0, 2, 3, 5, 11],
    &[1, 2, 3, 4, 5, 9],
    &[1, 2, 3, 5, 8],
    &[1, 2, 3, 4, 5, 7, 9],
    &[1, 2, 3, 5, 7, 8],
    &[1, 2, 3, 4, 5, 7],
    &[1, 2, 3, 5, 7],
    &[1, 2, 3, 5, 7],
    &[0, 2, 3, 5],
];

/// The numbers due to an operation's stage; only 11 where no rule pairs them.
fn stage_due(operation: usize, stage: usize) -> &'static [usize] {
    match (operation, stage) {
        (6 | 8, 1 | 2) | (10, 1) => &[1, 11],
        (6 | 8 | 10 | 11, 3) | (7 | 11 | 12, 1) => &[0, 1, 11],
        (7, 4) | (9, 5) => &[0, 11],
        _ => &[11],
    }
}

impl Coverage {
    pub fn new() -> Coverage {
        let mut rows = Vec::new();
        for (kind, name) in KINDS.iter().enumerate() {
            rows.push(Row { name: name.to_string(), due: CALLS_DUE[kind], ..Row::default() });
        }
        for (code, due) in REQUESTS_DUE.into_iter().enumerate() {
            let name = if code == 0 { "request unknown".into() } else { format!("request {code}") };
            rows.push(Row { name, due, ..Row::default() });
        }
        rows.push(Row { name: "move refused early".into(), due: &[2, 3, 6], ..Row::default() });
        for operation in 6..6 + OPERATIONS {
            for (stage, name) in STAGES.iter().enumerate() {
                let name =
                    if operation > 12 { format!("unknown, {name}") } else { format!("move {operation}, {name}") };
                rows.push(Row { name, due: stage_due(operation, stage), ..Row::default() });
            }
        }
        Coverage { rows, events_in_batches: 0 }
    }

    /// Notes the answer of a call to the world as it was before.
    pub fn note(&mut self, before: &World, call: &Call, answer: Numbers) {
        let Some(number) = usize::try_from(answer.number).ok().filter(|number| *number < NUMBERS) else { return };
        self.rows[call.kind()].counts[number] += 1;
        let row = match *call {
            Call::Request { code, .. } => KINDS.len() + if code <= 13 { code as usize } else { 0 },
            Call::Move { .. } if matches!(number, 2 | 3 | 6) => KINDS.len() + REQUESTS - 1,
            Call::Move { worker, .. } => {
                let operation = before.field(worker, field::OPERATION);
                let operation = if (6..=12).contains(&operation) { operation as usize - 6 } else { 7 };
                let stage = before.field(worker, field::STAGE).min(6) as usize;
                KINDS.len() + REQUESTS + operation * STAGES.len() + stage
            }
            _ => return,
        };
        self.rows[row].counts[number] += 1;
    }

    /// The table.
    pub fn table(&self) -> String {
        let mut text = format!("{:<26}", "answers by number");
        for number in 0..NUMBERS {
            let _ = write!(text, "{number:>8}");
        }
        text.push('\n');
        for row in self.rows.iter().filter(|row| row.counts.iter().any(|count| *count != 0)) {
            let _ = write!(text, "{:<26}", row.name);
            for count in row.counts {
                let _ = if count == 0 { write!(text, "{:>8}", ".") } else { write!(text, "{count:>8}") };
            }
            text.push('\n');
        }
        text
    }

    /// The answers that are due but were met too seldom.
    pub fn thin(&self) -> Vec<String> {
        let mut thin = Vec::new();
        for row in &self.rows {
            for &number in row.due {
                if row.counts[number] < FEW {
                    thin.push(format!("{} with number {number}: {} times", row.name, row.counts[number]));
                }
            }
        }
        thin
    }
}
