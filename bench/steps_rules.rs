// The words of a table and the specification's judgements of them, for steps_judged.rs: each by as few tests as it takes.
// The layout of a slot stands here alone, for all of the bench, and all that depends on it follows from it.

/// How many words a slot has.
pub const SLOT_WORDS: usize = 2;
/// The word of a slot that is its key, and the one that its fields are in: state, links, locks.
pub const KEY: usize = 0;
pub const FIELDS: usize = 1;
pub type Slot = [u64; SLOT_WORDS];
/// The words of each slot.
pub type Pairs = [Slot];

pub const STATE_BITS: u32 = 2;
pub const LINK_BITS: u32 = 10;
const LOCK_BITS: u32 = 6;
const BUSY_BITS: u32 = 5;

pub const STATE_AT: u32 = u64::BITS - STATE_BITS;
pub const LEFT_AT: u32 = STATE_AT - LINK_BITS;
pub const RIGHT_AT: u32 = LEFT_AT - LINK_BITS;
pub const STATE_LOCK_AT: u32 = RIGHT_AT - LOCK_BITS;
pub const LEFT_LOCK_AT: u32 = STATE_LOCK_AT - LOCK_BITS;
pub const RIGHT_LOCK_AT: u32 = LEFT_LOCK_AT - LOCK_BITS;
pub const BUSY_AT: u32 = RIGHT_LOCK_AT - BUSY_BITS;

/// A state, in its place: states compare as the words do.
pub const DATA: u64 = 1 << STATE_AT;
pub const ROUTING: u64 = 2 << STATE_AT;
pub const DELETED: u64 = 3 << STATE_AT;
pub const STATE: u64 = 3 << STATE_AT;

pub const LINK: u64 = (1 << LINK_BITS) - 1;
pub const LINKS: u64 = LINK << LEFT_AT | LINK << RIGHT_AT;

const LEAST_SLOTS: usize = 2;
const MOST_SLOTS: usize = 1 << LINK_BITS;

/// One writer of a lock, in its place. A reader counts two of them.
pub const STATE_LOCK: u64 = 1 << STATE_LOCK_AT;
const LOCK_UNITS: u64 = STATE_LOCK | 1 << LEFT_LOCK_AT | 1 << RIGHT_LOCK_AT;
pub const LOCK: u64 = (1 << LOCK_BITS) - 1;
const MOST_READERS: u64 = 16;

/// One worker busy, in its place, and what the count of them may hold.
pub const SEAT: u64 = 1 << BUSY_AT;
pub const BUSY: u64 = (1 << BUSY_BITS) - 1;
pub const MOST_BUSY: u64 = 16;

/// The bits of a root's word that no field has.
pub const ROOT_REST: u64 = SEAT - 1;

const ROOT_KEY: u64 = u64::MAX;

/// The lock of the edge on a side, one writer.
pub fn edge_lock(side: u64) -> u64 {
    1 << if side == 0 { LEFT_LOCK_AT } else { RIGHT_LOCK_AT }
}

/// The whole field of the lock whose writer this is.
pub fn lock_field(unit: u64) -> u64 {
    unit * LOCK
}

fn link_at(side: u64) -> u32 {
    if side == 0 {
        LEFT_AT
    } else {
        RIGHT_AT
    }
}

/// A child on a side, in its place.
pub fn link_to(side: u64, child: u64) -> u64 {
    child << link_at(side)
}

pub fn link_field(side: u64) -> u64 {
    link_to(side, LINK)
}

pub fn link(word: u64, side: u64) -> u64 {
    word >> link_at(side) & LINK
}

/// The links of a second word, left and right.
pub fn links(word: u64) -> (usize, usize) {
    ((word >> LEFT_AT & LINK) as usize, (word >> RIGHT_AT & LINK) as usize)
}

/// The readers' bits of the lock whose writer this is: all above the writer's.
pub fn reader_bits(unit: u64) -> u64 {
    unit * (LOCK - 1)
}

/// Is the lock written? Only of a word that is fine, where an odd lock is 1.
pub fn written(word: u64, unit: u64) -> bool {
    word & unit != 0
}

/// Has the lock as many readers as it may have?
pub fn crowded(word: u64, unit: u64) -> bool {
    word & lock_field(unit) == 2 * MOST_READERS * unit
}

/// Is each lock of the word 0, 1 or even up to 32? All three at once: where a lock is odd, no other bit of it may be set, and
/// where its top bit is set, which is 32, none below.
fn locks_fine(word: u64) -> bool {
    let odd = word & LOCK_UNITS;
    let top = word >> (LOCK_BITS - 1) & LOCK_UNITS;
    word & (odd * (LOCK - 1) | top * (LOCK >> 1)) == 0
}

/// A pair's second word, not the root's, by the rules: not free, links within the table, locks as they may be, no other bit.
#[inline(always)]
pub fn pair_fine(word: u64, slots: usize) -> bool {
    let (left, right) = links(word);
    let rest = word & ((1 << RIGHT_LOCK_AT) - 1);
    word >= DATA && left < slots && right < slots && rest == 0 && locks_fine(word)
}

/// The links of a word without locks that is not free and has no other bit, wherever they lead. A turn brings state and
/// links to the bottom, so that one range says all of it.
#[inline(always)]
pub fn links_at_once(word: u64) -> Option<(usize, usize)> {
    const LEAST_STATE: u64 = 1 << (2 * LINK_BITS);
    const STATES: u64 = 3;
    let turned = word.rotate_left(STATE_BITS + 2 * LINK_BITS).wrapping_sub(LEAST_STATE);
    if turned >= STATES * LEAST_STATE {
        return None;
    }
    Some(((turned >> LINK_BITS & LINK) as usize, (turned & LINK) as usize))
}

/// The pairs, and the root's word: where the size is one that tables have, and the root has its key. A turn makes a number of
/// words that is no slots' too large, as long as a slot's words are a power of two.
#[inline(always)]
pub fn rooted(words: &mut [u64]) -> Option<(&mut Pairs, u64)> {
    const TURN: u32 = SLOT_WORDS.ilog2();
    const _: () = assert!(1 << TURN == SLOT_WORDS);
    let beyond_least = words.len().wrapping_sub(SLOT_WORDS * LEAST_SLOTS).rotate_right(TURN);
    if beyond_least > MOST_SLOTS - LEAST_SLOTS {
        return None;
    }
    let (pairs, _) = words.as_chunks_mut::<SLOT_WORDS>();
    match *pairs.first()? {
        [ROOT_KEY, word, ..] => Some((pairs, word)),
        _ => None,
    }
}

/// What the root's word is at least, with nobody or with one worker busy.
pub const ROOT_EMPTY: u64 = DATA;
pub const ROOT_SEATED: u64 = DATA + SEAT;

/// The root's word without locks by rule 1, at once: less the least that it may be, only the left link and up to fifteen
/// workers more are left. A turn brings the link to the bottom, and a mask takes the workers away.
#[inline(always)]
pub fn root_at_once(word: u64, least: u64, slots: usize) -> bool {
    const BOTTOM: u32 = STATE_BITS + LINK_BITS;
    let more = ((MOST_BUSY - 1) * SEAT).rotate_left(BOTTOM);
    word.wrapping_sub(least).rotate_left(BOTTOM) & !more < slots as u64
}

/// How many are busy, by a root's word that keeps rule 1.
#[inline(never)]
pub fn root_busy(word: u64, slots: usize) -> Option<u64> {
    let busy = word >> BUSY_AT & BUSY;
    let (left, right) = links(word);
    let rest = word & ROOT_REST;
    let fine = word & STATE == DATA && left < slots && right == 0 && rest == 0 && busy <= MOST_BUSY && locks_fine(word);
    if fine {
        Some(busy)
    } else {
        None
    }
}

/// Whether a worker is busy, by a root's word that keeps rule 1.
#[inline(always)]
pub fn judged_root(pairs: &Pairs, word: u64) -> Option<bool> {
    if root_at_once(word, ROOT_SEATED, pairs.len()) {
        return Some(true);
    }
    let busy = root_busy(word, pairs.len())?;
    Some(busy != 0)
}

const YEAR_AT: u32 = 52;
const MONTH_AT: u32 = 48;
const DAY_AT: u32 = 43;
const HOUR_AT: u32 = 38;
const MINUTE_AT: u32 = 32;
const SECOND_AT: u32 = 26;
const HUNDREDTH_AT: u32 = 19;
const CAMERA_AT: u32 = 14;

const FIRST_YEAR: u64 = 1990;
const YEARS: u64 = 1010;
const DAY: u64 = 31;
const MONTH: u64 = 15;

/// The least legal key: less it, every field of a legal key counts from 0.
const LEAST: u64 = FIRST_YEAR << YEAR_AT | 1 << MONTH_AT | 1 << DAY_AT;
/// What each field lacks to its size at its most, days counted to 28: with it, a field that is too large runs over.
const SLACK: u64 = (4096 - YEARS) << YEAR_AT | DAY_SLACK | REST_SLACK;
const DAY_SLACK: u64 = (32 - 28) << DAY_AT;
const REST_SLACK: u64 = (16 - 12) << MONTH_AT
    | (32 - 24) << HOUR_AT
    | (64 - 60) << MINUTE_AT
    | (64 - 60) << SECOND_AT
    | (128 - 100) << HUNDREDTH_AT
    | (16384 - 10000);
/// The lowest bit of each field but the number. All slacks are even, so it changes only where the field below runs over.
const LOWEST: u64 = 1 << YEAR_AT
    | 1 << MONTH_AT
    | 1 << DAY_AT
    | 1 << HOUR_AT
    | 1 << MINUTE_AT
    | 1 << SECOND_AT
    | 1 << HUNDREDTH_AT
    | 1 << CAMERA_AT;

/// Does no field run over with this slack? The year's would run over the word.
#[inline(always)]
fn roomy(k: u64, slack: u64) -> bool {
    matches!(k.checked_add(slack), Some(sum) if (sum ^ k) & LOWEST == 0)
}

/// Is the key legal, with a day up to 28?
#[inline(always)]
pub fn legal_at_once(key: u64) -> bool {
    roomy(key.wrapping_sub(LEAST), SLACK)
}

/// Is the key legal?
#[inline(always)]
pub fn legal(key: u64) -> bool {
    legal_at_once(key) || legal_late(key)
}

/// Is the key legal, whatever its day? A day 0 counts as the highest, which no month has.
#[inline(always)]
fn legal_late(key: u64) -> bool {
    // days above 28 of each month, two bits a month, January the lowest
    const MORE_DAYS: u64 = 0b11_10_11_10_11_11_10_11_10_11_00_11;
    let k = key.wrapping_sub(LEAST);
    let (month, day) = (k >> MONTH_AT & MONTH, k >> DAY_AT & DAY);
    let days = 28 + (MORE_DAYS >> (2 * month) & 3);
    // days count from 0: day 28 is the 29th, which February alone may lack
    roomy(k, SLACK - DAY_SLACK) && (day < days || day == 28 && leap(key >> YEAR_AT))
}

#[inline(never)]
fn leap(year: u64) -> bool {
    year % 4 == 0 && (year % 100 != 0 || year % 400 == 0)
}
