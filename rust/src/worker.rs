//! Workers: one work at a time, one small step a call.
use crate::answer::{answer, told, Answer, Refusal};
use crate::key::Key;
use crate::raw::{self, RECORD_WORDS};
use crate::table::Table;

/// What a worker may be busy with.
#[derive(Clone, Copy, Debug, PartialEq, Eq, Hash)]
pub enum Work {
    Lookup,
    Insert,
    Remove,
}

/// A worker's record. It cannot be copied: two records of one work would give up one lock twice. Use it on one table.
///
/// ```
/// use pannuqreik::{words_for, Answer, Key, Refusal, Table, Work, Worker};
/// let mut words = [0; words_for(4)];
/// let mut table = Table::fresh(&mut words)?;
/// let key = Key::new(0x7E86_7A7A_1C00_4065)?;
/// let mut culler = Worker::new();
/// assert_eq!(culler.step(&mut table), Err(Refusal::State)); // idle
/// culler.start(&mut table, Work::Remove, key)?;
/// assert_eq!(culler.work(), Some(Work::Remove));
/// assert_eq!(culler.step(&mut table)?, Answer::No); // not in
/// assert_eq!(culler.work(), None);
/// # Ok::<(), Refusal>(())
/// ```
#[derive(Debug, Default, PartialEq, Eq)]
pub struct Worker {
    record: [u64; RECORD_WORDS],
}

impl Worker {
    /// An idle worker.
    pub const fn new() -> Worker {
        Worker { record: [0; RECORD_WORDS] }
    }

    /// What it is busy with.
    pub fn work(&self) -> Option<Work> {
        match self.record[0] {
            1 => Some(Work::Lookup),
            2 => Some(Work::Insert),
            3 => Some(Work::Remove),
            _ => None,
        }
    }

    /// Begins a work: takes a seat, at the root. Or 1, 2, 4.
    pub fn start(&mut self, table: &mut Table, work: Work, key: Key) -> Result<(), Refusal> {
        let call = match work {
            Work::Lookup => raw::start_lookup,
            Work::Insert => raw::start_insert,
            Work::Remove => raw::start_remove,
        };
        told(call(table.lent(), &mut self.record, key.number()), ())
    }

    /// One step. Or 1, 2, 6, 9.
    pub fn step(&mut self, table: &mut Table) -> Result<Answer, Refusal> {
        answer(raw::step(table.lent(), &mut self.record))
    }

    /// Does it stand at the root: just started, or sent back there by a restart?
    pub fn at_root(&self) -> bool {
        self.work().is_some() && self.record[2..] == [0; 9]
    }

    /// Gives up locks and seat of a work that has not stored yet; the worker is idle then. Or 1, 2, 6, 7.
    pub fn withdraw(&mut self, table: &mut Table) -> Result<(), Refusal> {
        told(raw::withdraw(table.lent(), &mut self.record), ())
    }

    /// A whole work in one call: the last answer, and how many steps it took. Alone on a sound table with no lock held and
    /// no deleted slot linked a work ends within the number of slots plus 10 steps; where it does not, because others hold
    /// locks, the answer is `Going` after so many, and the worker is still busy.
    pub fn run(&mut self, table: &mut Table, work: Work, key: Key) -> Result<(Answer, usize), Refusal> {
        self.start(table, work, key)?;
        let most = table.slots() + 10;
        for steps in 1..most {
            match self.step(table)? {
                Answer::Going => {}
                last => return Ok((last, steps)),
            }
        }
        Ok((self.step(table)?, most))
    }
}
