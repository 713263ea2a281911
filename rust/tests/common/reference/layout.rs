//! The table's layout, from the specification's words: the words of a slot, and the fields of its second word from the top
//! down. The widths stand here once in all tests; places, masks and sizes follow from them.
use std::ops::Range;

// A slot's words: its key, then its fields.
const SLOT_WORDS: usize = 2;

// From the top: state, left link, right link, state lock, left edge lock, right edge lock; in the root, workers busy. All other
// bits are zero.
const STATE_BITS: u32 = 2;
const LINK_BITS: u32 = 10;
const LOCK_BITS: u32 = 6;
const BUSY_BITS: u32 = 5;

pub const FEWEST_SLOTS: usize = 2;
/// A link can name so many.
pub const MOST_SLOTS: usize = 1 << LINK_BITS;

/// A lock is twice its readers.
pub const MOST_READERS: u64 = 16;
pub const MOST_BUSY: u64 = 16;

/// The root has an all-ones key.
pub const ROOT_KEY: u64 = u64::MAX;

/// Some bits of a second word.
#[derive(Clone, Copy)]
pub struct Field {
    at: u32,
    width: u32,
}

impl Field {
    const fn at_the_top(width: u32) -> Field {
        Field { at: u64::BITS - width, width }
    }

    /// The field that follows.
    const fn then(self, width: u32) -> Field {
        Field { at: self.at - width, width }
    }

    /// The bits that follow.
    const fn rest(self) -> u64 {
        (1 << self.at) - 1
    }

    /// How many numbers fit. A damaged table may hold each of them.
    pub const fn size(self) -> u64 {
        1 << self.width
    }

    /// What the word has there.
    pub fn of(self, word: u64) -> u64 {
        word >> self.at & (self.size() - 1)
    }

    /// A number in its place.
    pub fn holding(self, number: u64) -> u64 {
        number << self.at
    }
}

pub const STATE: Field = Field::at_the_top(STATE_BITS);
const LEFT: Field = STATE.then(LINK_BITS);
const RIGHT: Field = LEFT.then(LINK_BITS);
const STATE_LOCK: Field = RIGHT.then(LOCK_BITS);
const LEFT_LOCK: Field = STATE_LOCK.then(LOCK_BITS);
const RIGHT_LOCK: Field = LEFT_LOCK.then(LOCK_BITS);
/// Only the root has it.
pub const BUSY: Field = RIGHT_LOCK.then(BUSY_BITS);

/// By side: left, right.
pub const LINKS: [Field; 2] = [LEFT, RIGHT];
/// The state's lock comes first, then the edges' by side.
pub const LOCKS: [Field; 3] = [STATE_LOCK, LEFT_LOCK, RIGHT_LOCK];

/// The bits that should be zero: of the root, and of any other slot.
pub const ROOT_REST: u64 = BUSY.rest();
pub const REST: u64 = RIGHT_LOCK.rest();

/// The words of so many slots.
pub const fn words_for(slots: usize) -> usize {
    SLOT_WORDS * slots
}

/// The slots of so many words. Words that are too few for a slot are no slot's.
pub const fn slots_in(words: usize) -> usize {
    words / SLOT_WORDS
}

/// Where the key of slot i is: its first word.
pub const fn key_place(i: usize) -> usize {
    words_for(i)
}

/// Where the fields of slot i are: its second word.
pub const fn fields_place(i: usize) -> usize {
    key_place(i) + 1
}

/// Where all words of slot i are.
pub const fn slot_places(i: usize) -> Range<usize> {
    words_for(i)..words_for(i + 1)
}
