//! Answers: a number and a value (document 01, Numbers given back).

use std::fmt;

use crate::ffi::Numbers;

/// What came of a call.
#[derive(Clone, Copy, Debug, PartialEq, Eq, Hash)]
pub enum Answer {
    /// Number 0: done, with the value.
    Done(u64),
    /// Number 1: under way; the worker's next move goes on with it.
    UnderWay,
    /// A number from 2 up: nothing has changed.
    Refused(Refusal),
}

/// Why a call was refused. If several apply, the smallest number is given.
#[derive(Clone, Copy, Debug, PartialEq, Eq, PartialOrd, Ord, Hash)]
#[repr(u64)]
pub enum Refusal {
    /// The page rules do not hold: n, bw, W or the length of a slice.
    BadPage = 2,
    /// No such worker.
    NoWorker = 3,
    /// No request has this number, or its block, run of blocks or tag is none.
    NoSuch = 4,
    /// The worker has an operation under way; for T switched off, any worker has.
    Busy = 5,
    /// Move of an idle worker.
    Idle = 6,
    /// T is off, and is asked for or switched off; or it is on already.
    Switched = 7,
    /// A take while got still holds blocks, or T switched off while it does.
    NotEmpty = 8,
    /// A block that is named is listed already; of an extend, one at least.
    Listed = 9,
    /// Pop with own empty; no unlisted block; too little room for the answers of events.
    NoneLeft = 10,
    /// A head, a link or a worker's record is damaged.
    Damaged = 11,
}

impl Refusal {
    /// Every refusal, by its number.
    pub const ALL: [Refusal; 10] = [
        Refusal::BadPage,
        Refusal::NoWorker,
        Refusal::NoSuch,
        Refusal::Busy,
        Refusal::Idle,
        Refusal::Switched,
        Refusal::NotEmpty,
        Refusal::Listed,
        Refusal::NoneLeft,
        Refusal::Damaged,
    ];

    /// Document 01's number.
    pub fn number(self) -> u64 {
        self as u64
    }
}

impl fmt::Display for Refusal {
    fn fmt(&self, to: &mut fmt::Formatter) -> fmt::Result {
        let why = match self {
            Refusal::BadPage => "n, bw, W or a slice length breaks the page rules",
            Refusal::NoWorker => "no such worker",
            Refusal::NoSuch => "no such operation, block or tag",
            Refusal::Busy => "an operation is under way",
            Refusal::Idle => "the worker is idle",
            Refusal::Switched => "T is off, or is so switched already",
            Refusal::NotEmpty => "a list is not empty",
            Refusal::Listed => "the block is on a list or in a hand",
            Refusal::NoneLeft => "there is none left",
            Refusal::Damaged => "damaged",
        };
        write!(to, "{} ({why})", self.number())
    }
}

impl std::error::Error for Refusal {}

impl Answer {
    /// Document 01's number, 0 to 11.
    pub fn number(self) -> u64 {
        match self {
            Answer::Done(_) => 0,
            Answer::UnderWay => 1,
            Answer::Refused(refusal) => refusal.number(),
        }
    }

    /// The value; 0 unless done.
    pub fn value(self) -> u64 {
        match self {
            Answer::Done(value) => value,
            Answer::UnderWay | Answer::Refused(_) => 0,
        }
    }

    /// The value of a call that acts at once, which is never under way.
    pub(crate) fn at_once(self) -> Result<u64, Refusal> {
        match self {
            Answer::Done(value) => Ok(value),
            Answer::UnderWay => Ok(0),
            Answer::Refused(refusal) => Err(refusal),
        }
    }
}

impl From<Numbers> for Answer {
    /// # Panics
    ///
    /// On a number that document 01 does not have: then the archive is of another version than this crate.
    fn from(numbers: Numbers) -> Answer {
        match numbers.number {
            0 => Answer::Done(numbers.value),
            1 => Answer::UnderWay,
            number => match Refusal::ALL.get((number - 2) as usize) {
                Some(&refusal) => Answer::Refused(refusal),
                None => panic!("the archive answers with number {number}, which this crate does not know"),
            },
        }
    }
}

#[cfg(test)]
mod tests {
    use super::*;

    #[test]
    fn numbers_are_those_of_the_table() {
        for (place, refusal) in Refusal::ALL.into_iter().enumerate() {
            assert_eq!(refusal.number(), place as u64 + 2);
            let answer = Answer::from(Numbers { number: refusal.number(), value: 0 });
            assert_eq!(answer, Answer::Refused(refusal));
            assert_eq!((answer.number(), answer.value()), (refusal.number(), 0));
        }
        assert_eq!(Answer::from(Numbers { number: 0, value: 7 }), Answer::Done(7));
        assert_eq!(Answer::from(Numbers { number: 1, value: 0 }), Answer::UnderWay);
    }

    #[test]
    #[should_panic(expected = "number 99")]
    fn an_unknown_number_is_told() {
        let _ = Answer::from(Numbers { number: 99, value: 0 });
    }
}
