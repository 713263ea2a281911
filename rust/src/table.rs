//! The table: lent words.
use crate::answer::{refusal, told, Refusal};
use crate::key::Key;
use crate::raw::{self, SLOT_WORDS};

/// A table over words that the caller lends: [`SLOT_WORDS`] for each slot, [`FEWEST_SLOTS`](crate::FEWEST_SLOTS) to
/// [`MOST_SLOTS`](crate::MOST_SLOTS) slots. [`words_for`](crate::words_for) says how many words that is.
#[derive(Debug)]
pub struct Table<'a> {
    words: &'a mut [u64],
}

impl<'a> Table<'a> {
    /// A fresh table of the words, whatever they held; or 1.
    pub fn fresh(words: &'a mut [u64]) -> Result<Table<'a>, Refusal> {
        told(raw::fresh(words), ())?;
        Ok(Table { words })
    }

    /// The table that the words are, whatever they hold: every call judges them.
    ///
    /// ```
    /// use pannuqreik::{words_for, Refusal, Table, SLOT_WORDS};
    /// let mut words = [7; words_for(4)];
    /// assert_eq!(Table::open(&mut words).check(), Err(Refusal::Table)); // no root
    /// Table::fresh(&mut words)?;
    /// words[SLOT_WORDS] = 1; // the first word of slot 1, and a free slot is zero in all its words
    /// assert_eq!(Table::open(&mut words).check(), Ok(false));
    /// # Ok::<(), Refusal>(())
    /// ```
    pub fn open(words: &'a mut [u64]) -> Table<'a> {
        Table { words }
    }

    /// How many slots the words make. One of them is the root.
    pub fn slots(&self) -> usize {
        self.words.len() / SLOT_WORDS
    }

    /// The words, to look at.
    pub fn words(&self) -> &[u64] {
        self.words
    }

    pub(crate) fn lent(&mut self) -> &mut [u64] {
        self.words
    }

    /// Is the table sound? Or 1.
    pub fn check(&self) -> Result<bool, Refusal> {
        match raw::check(self.words) {
            raw::YES => Ok(true),
            raw::NO => Ok(false),
            n => Err(refusal(n)),
        }
    }

    /// The keys from low to high, both included, smallest first: the filled front of `out`, whose rest stays. Or 1, 6, 11.
    ///
    /// ```
    /// use pannuqreik::{words_for, Key, Refusal, Table, Work, Worker};
    /// let mut words = [0; words_for(4)];
    /// let mut table = Table::fresh(&mut words)?;
    /// let key = Key::new(0x7E86_7A7A_1C00_4065)?;
    /// Worker::new().run(&mut table, Work::Insert, key)?;
    /// assert_eq!(table.list(0, u64::MAX, &mut [0; 3])?, [key.number()]);
    /// assert_eq!(table.list(0, u64::MAX, &mut []), Err(Refusal::Beyond));
    /// assert_eq!(table.list(5, 4, &mut [])?, []);
    /// # Ok::<(), Refusal>(())
    /// ```
    pub fn list<'b>(&self, low: u64, high: u64, out: &'b mut [u64]) -> Result<&'b mut [u64], Refusal> {
        let mut count = 0;
        told(raw::list(self.words, low, high, out, &mut count), ())?;
        Ok(&mut out[..count as usize])
    }

    /// The smallest key at or above a number. Or 1, 6, 13.
    pub fn first(&self, from: u64) -> Result<Key, Refusal> {
        let mut key = 0;
        told(raw::first(self.words, from, &mut key), ())?;
        Ok(Key::handed(key))
    }

    /// Every deleted slot becomes free. Or 1, 8, 6.
    pub fn sweep(&mut self) -> Result<(), Refusal> {
        told(raw::sweep(self.words), ())
    }
}
