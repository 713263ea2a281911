// Locks and stores of steps_judged.rs: each on one word, after the pair has been judged.

use super::rules::{
    crowded, link_field, link_to, lock_field, pair_fine, reader_bits, written, Pairs, DATA, DELETED, FIELDS, LINKS, ROUTING,
    STATE,
};
use super::{Judged, CROWDED, DAMAGED, GOING};

/// More than any phase does: all its locks are held.
pub const ALL: u64 = u64::MAX;

/// A slot, and the locks that are held of it: one writer each, one reader each.
pub type Held = (u64, u64, u64);

/// What a lock expects of a word, or what is stored into it: a mask, and what stands under it.
pub type Bits = (u64, u64);

pub const IS_DATA: Bits = (STATE, DATA);
pub const IS_ROUTING: Bits = (STATE, ROUTING);
pub const IS_LEAF: Bits = (STATE | LINKS, DATA);
/// Every lock expects its slot not deleted, and one no more than that.
pub const NO_MORE: Bits = (0, 0);

pub fn leads(side: u64, child: u64) -> Bits {
    (link_field(side), link_to(side, child))
}

/// This lock, if so many steps are done.
pub fn since(least: u64, done: u64, lock: u64) -> u64 {
    if done >= least {
        lock
    } else {
        0
    }
}

/// Does a pair keep the rules? Rule 1 has judged the root's.
#[inline(always)]
pub fn fine(pairs: &Pairs, slot: u64) -> bool {
    slot == 0 || pair_fine(pairs[slot as usize][FIELDS], pairs.len())
}

/// Gives locks up, if each is held and each pair that has one keeps the rules.
#[inline(always)]
fn give_up<const N: usize>(pairs: &mut Pairs, held: [Held; N]) -> bool {
    for (slot, writes, reads) in held {
        let word = pairs[slot as usize][FIELDS];
        let lost = word & writes != writes || reads != 0 && word & reader_bits(reads) == 0;
        if writes | reads != 0 && (lost || !fine(pairs, slot)) {
            return false;
        }
    }
    for (slot, writes, reads) in held {
        pairs[slot as usize][FIELDS] -= writes + 2 * reads;
    }
    true
}

impl Judged {
    #[inline(always)]
    pub(super) fn went(&mut self) -> u64 {
        self.done += 1;
        GOING
    }

    /// A lock can't be had: gives up what is held, and restarts.
    #[inline(always)]
    pub(super) fn lose<const N: usize>(&mut self, pairs: &mut Pairs, held: [Held; N]) -> u64 {
        if give_up(pairs, held) {
            self.restart()
        } else {
            DAMAGED
        }
    }

    /// Ends, if the locks can be given up.
    #[inline(always)]
    pub(super) fn end<const N: usize>(&mut self, pairs: &mut Pairs, held: [Held; N], answer: u64) -> u64 {
        if give_up(pairs, held) {
            self.over(&mut pairs[0], answer)
        } else {
            DAMAGED
        }
    }

    /// Takes a lock to write; none where it can't be had.
    #[inline(always)]
    pub(super) fn write(&mut self, pairs: &mut Pairs, slot: u64, lock: u64, (mask, value): Bits) -> Option<u64> {
        let word = pairs[slot as usize][FIELDS];
        if !fine(pairs, slot) {
            return Some(DAMAGED);
        }
        if word >= DELETED || word & (mask | lock_field(lock)) != value {
            return None;
        }
        pairs[slot as usize][FIELDS] = word + lock;
        Some(self.went())
    }

    /// Takes a lock to read; none where it can't be had.
    #[inline(always)]
    pub(super) fn read(&mut self, pairs: &mut Pairs, slot: u64, lock: u64, (mask, value): Bits) -> Option<u64> {
        let word = pairs[slot as usize][FIELDS];
        if !fine(pairs, slot) {
            return Some(DAMAGED);
        }
        if word >= DELETED || word & mask != value || written(word, lock) {
            return None;
        }
        if crowded(word, lock) {
            return Some(CROWDED);
        }
        pairs[slot as usize][FIELDS] = word + 2 * lock;
        Some(self.went())
    }

    /// Stores a state or a link.
    #[inline(always)]
    pub(super) fn store(&mut self, pairs: &mut Pairs, slot: u64, (mask, value): Bits) -> u64 {
        let word = pairs[slot as usize][FIELDS];
        if !fine(pairs, slot) {
            return DAMAGED;
        }
        pairs[slot as usize][FIELDS] = word & !mask | value;
        self.went()
    }
}
