//! Requests 1 to 13 and the four kinds of event.

use crate::ffi::EVENT_WORDS;

/// A request, by document 01's numbers 1 to 13.
///
/// Requests 6 to 12 are under way at first and go on by moves; the rest act at once.
#[derive(Clone, Copy, Debug, PartialEq, Eq, Hash)]
pub enum Request {
    /// 1: puts the block at the front of own.
    Insert {
        /// The block, 1 to n.
        block: u64,
    },
    /// 2: takes own's front block. Value: its number.
    Pop,
    /// 3: puts got before own. Value: got's length.
    Append,
    /// 4: puts blocks first, first+1, .. before own in ascending order. Value: count.
    Extend {
        /// The first block, 1 to n.
        first: u64,
        /// How many, at least 1.
        count: u64,
    },
    /// 5: empties own. Value: its length.
    Release,
    /// 6: pushes the block on S.
    PushShared {
        /// The block, 1 to n.
        block: u64,
    },
    /// 7: takes S to got. Value: its front block, or 0.
    TakeShared,
    /// 8: pushes the block on T, tag kept. Value: the tag.
    PushTagged {
        /// The block, 1 to n.
        block: u64,
    },
    /// 9: takes T to got in one move. Value: its front block, or 0.
    TakeTagged,
    /// 10: sets T's tag. Value: the tag before.
    SetTag {
        /// The tag, 0 to 3.
        tag: u64,
    },
    /// 11: asks for tag 0. Value: 0 after five sightings of tag 1, else 1.
    AskForTagZero,
    /// 12: waits until the tag is not 1. Value: the tag.
    WaitUntilNotFreeing,
    /// 13: value 1 if own is empty, else 0.
    IsEmpty,
}

impl Request {
    /// The request's number, 1 to 13.
    pub fn code(self) -> u64 {
        match self {
            Request::Insert { .. } => 1,
            Request::Pop => 2,
            Request::Append => 3,
            Request::Extend { .. } => 4,
            Request::Release => 5,
            Request::PushShared { .. } => 6,
            Request::TakeShared => 7,
            Request::PushTagged { .. } => 8,
            Request::TakeTagged => 9,
            Request::SetTag { .. } => 10,
            Request::AskForTagZero => 11,
            Request::WaitUntilNotFreeing => 12,
            Request::IsEmpty => 13,
        }
    }

    /// The arguments a and b, 0 where unused.
    pub fn arguments(self) -> (u64, u64) {
        match self {
            Request::Insert { block } | Request::PushShared { block } | Request::PushTagged { block } => (block, 0),
            Request::Extend { first, count } => (first, count),
            Request::SetTag { tag } => (tag, 0),
            _ => (0, 0),
        }
    }
}

/// One event of a run.
#[derive(Clone, Copy, Debug, PartialEq, Eq, Hash)]
pub enum Event {
    /// A worker's request.
    Request {
        /// The worker, from 0.
        worker: u64,
        /// What it asks for.
        request: Request,
    },
    /// A worker's move.
    Move {
        /// The worker, from 0.
        worker: u64,
        /// Set at an exchange, it fails.
        flag: bool,
    },
    /// T is switched on.
    On,
    /// T is switched off.
    Off,
}

impl Event {
    /// The five words of an event: kind, worker, code (a move's flag), a, b.
    pub fn words(self) -> [u64; EVENT_WORDS] {
        match self {
            Event::Request { worker, request } => {
                let (a, b) = request.arguments();
                [1, worker, request.code(), a, b]
            }
            Event::Move { worker, flag } => [2, worker, u64::from(flag), 0, 0],
            Event::On => [3, 0, 0, 0, 0],
            Event::Off => [4, 0, 0, 0, 0],
        }
    }
}
