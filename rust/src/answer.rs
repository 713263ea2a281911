//! Answers and refusals.
use crate::raw;
use std::{error::Error, fmt};

/// What a step answers.
#[derive(Clone, Copy, Debug, PartialEq, Eq, Hash)]
pub enum Answer {
    /// The work goes on: step again.
    Going,
    /// Ended. Lookup: the key is in. Insert: it put the key in. Remove: it took the key out.
    Yes,
    /// Ended. Lookup and remove: the key was not in. Insert: it was in already.
    No,
    /// Ended: an insert found no free slot.
    Full,
}

/// Why a call was refused. A refused call changed nothing.
///
/// ```
/// use pannuqreik::{Refusal, Table};
/// let refusal = Table::fresh(&mut [0; 5]).unwrap_err();
/// assert_eq!(refusal, Refusal::Table);
/// assert_eq!(refusal as u64, 1);
/// assert_eq!(Refusal::None.to_string(), "refused 13: no key at or above that number");
/// ```
#[derive(Clone, Copy, Debug, PartialEq, Eq, Hash)]
pub enum Refusal {
    Table = 1,
    State = 2,
    Range = 3,
    Busy = 4,
    Damaged = 6,
    Stored = 7,
    Working = 8,
    Readers = 9,
    Text = 10,
    Beyond = 11,
    Unknown = 12,
    None = 13,
}

impl Refusal {
    /// Every refusal, by its number.
    pub const ALL: [Refusal; 12] = [
        Refusal::Table,
        Refusal::State,
        Refusal::Range,
        Refusal::Busy,
        Refusal::Damaged,
        Refusal::Stored,
        Refusal::Working,
        Refusal::Readers,
        Refusal::Text,
        Refusal::Beyond,
        Refusal::Unknown,
        Refusal::None,
    ];

    /// The refusal that has this number.
    pub fn from_number(n: u64) -> Option<Refusal> {
        Refusal::ALL.into_iter().find(|r| *r as u64 == n)
    }
}

impl fmt::Display for Refusal {
    fn fmt(&self, f: &mut fmt::Formatter<'_>) -> fmt::Result {
        let why = match self {
            Refusal::Table => "the words are odd, under 4 or over 2,048, or the root's pair breaks a rule",
            Refusal::State => "start on a busy worker, or step or withdraw on an idle one",
            Refusal::Range => "a key that is not legal, or fields out of range",
            Refusal::Busy => "16 workers are busy",
            Refusal::Damaged => "the record or the table is damaged",
            Refusal::Stored => "the worker has stored already, and can no longer be withdrawn",
            Refusal::Working => "a worker is busy",
            Refusal::Readers => "16 readers hold the word; step again later",
            Refusal::Text => "the text has none of the forms, or says a date or time that does not exist",
            Refusal::Beyond => "place or length beyond the buffer, or more keys than the buffer holds",
            Refusal::Unknown => "the text says that the time is unknown",
            Refusal::None => "no key at or above that number",
        };
        write!(f, "refused {}: {}", *self as u64, why)
    }
}

impl Error for Refusal {}

/// What a call says that answers by a number: its value, or the refusal.
pub(crate) fn told<T>(number: u64, value: T) -> Result<T, Refusal> {
    if number == raw::DONE {
        return Ok(value);
    }
    Err(refusal(number))
}

pub(crate) fn refusal(number: u64) -> Refusal {
    Refusal::from_number(number).expect("the library gives no other number")
}

pub(crate) fn answer(number: u64) -> Result<Answer, Refusal> {
    match number {
        raw::DONE => Ok(Answer::Going),
        raw::YES => Ok(Answer::Yes),
        raw::NO => Ok(Answer::No),
        raw::FULL => Ok(Answer::Full),
        n => Err(refusal(n)),
    }
}
