// The same steps on the same words, as one would write them in Rust: no proof, and nothing judged. A table or a record that
// is damaged makes it panic or go astray. Only for comparison; bench/steps.rs checks that it leaves the same words.

use super::judged::rules::{
    FIELDS, KEY, LEFT_AT, LEFT_LOCK_AT, LINK, LINK_BITS, LOCK, RIGHT_AT, RIGHT_LOCK_AT, SEAT, SLOT_WORDS, STATE_AT, STATE_BITS,
    STATE_LOCK_AT,
};
use super::{over, FULL, GOING, NO, YES};

const FREE: u64 = 0;
const DATA: u64 = 1;
const ROUTING: u64 = 2;
const DELETED: u64 = 3;

const LINK_AT: [u32; 2] = [LEFT_AT, RIGHT_AT];
const LOCK_AT: [u32; 3] = [STATE_LOCK_AT, LEFT_LOCK_AT, RIGHT_LOCK_AT];

#[derive(Clone, Copy)]
pub enum Phase {
    Walk,
    OnRouting(u8),
    New(u8),
    Two(u8),
    One(u8),
    Leaf,
    UnderData(u8),
    UnderRouting(u8),
}

/// A worker's record: one struct for all phases.
#[derive(Clone, Copy)]
pub struct Plain {
    work: u64,
    key: u64,
    phase: Phase,
    this: usize,
    prev: usize,
    side: usize,
    before: usize,
    up: usize,
    other: usize,
    toward: usize,
}

pub const IDLE: Plain =
    Plain { work: 0, key: 0, phase: Phase::Walk, this: 0, prev: 0, side: 0, before: 0, up: 0, other: 0, toward: 0 };

fn key_place(i: usize) -> usize {
    SLOT_WORDS * i + KEY
}

fn fields_place(i: usize) -> usize {
    SLOT_WORDS * i + FIELDS
}

fn state(words: &[u64], i: usize) -> u64 {
    words[fields_place(i)] >> STATE_AT
}

fn link(words: &[u64], i: usize, side: usize) -> usize {
    (words[fields_place(i)] >> LINK_AT[side] & LINK) as usize
}

fn set(words: &mut [u64], i: usize, at: u32, width: u32, value: u64) {
    let w = &mut words[fields_place(i)];
    *w = *w & !(((1 << width) - 1) << at) | value << at;
}

fn set_state(words: &mut [u64], i: usize, to: u64) {
    set(words, i, STATE_AT, STATE_BITS, to);
}

fn set_link(words: &mut [u64], i: usize, side: usize, to: usize) {
    set(words, i, LINK_AT[side], LINK_BITS, to as u64);
}

type Lock = (usize, usize, bool);

impl Plain {
    pub fn start(&mut self, words: &mut [u64], work: u64, key: u64) {
        words[fields_place(0)] += SEAT;
        *self = Plain { work, key, ..IDLE };
    }

    /// The locks of this phase, in the order in which they are taken: slot, field, written.
    fn locks(&self) -> ([Lock; 5], usize) {
        let (this, prev) = (self.this, self.prev);
        let none = (0, 0, false);
        match self.phase {
            Phase::Walk | Phase::Leaf => ([none; 5], 0),
            Phase::OnRouting(_) | Phase::Two(_) => ([(this, 0, true), none, none, none, none], 1),
            Phase::New(_) => ([(prev, 1 + self.side, true), (prev, 0, false), none, none, none], 2),
            Phase::One(_) => ([(this, 1 + self.toward, false), (prev, 1 + self.side, true), (this, 0, true), none, none], 3),
            Phase::UnderData(_) => ([(prev, 1 + self.side, true), (this, 0, true), (prev, 0, false), none, none], 3),
            Phase::UnderRouting(_) => (
                [
                    (prev, 1 + self.side, true),
                    (this, 0, true),
                    (prev, 2 - self.side, false),
                    (self.before, 1 + self.up, true),
                    (prev, 0, true),
                ],
                5,
            ),
        }
    }

    fn give_up(&self, words: &mut [u64], n: usize) {
        let (locks, _) = self.locks();
        for (slot, field, write) in &locks[..n] {
            words[fields_place(*slot)] -= (if *write { 1 } else { 2 }) << LOCK_AT[*field];
        }
    }

    fn restart(&mut self) -> u64 {
        *self = Plain { work: self.work, key: self.key, ..IDLE };
        GOING
    }

    fn walk(&mut self, words: &mut [u64]) -> u64 {
        let at = self.this;
        let key = words[key_place(at)];
        if key == self.key {
            return self.found(words, at);
        }
        let side = (key < self.key) as usize;
        let next = link(words, at, side);
        if next != 0 {
            *self = Plain { this: next, prev: at, side, before: self.prev, up: self.side, ..*self };
            return GOING;
        }
        if self.work != 2 {
            return over(self, IDLE, words, NO);
        }
        *self = Plain { phase: Phase::New(0), this: 0, prev: at, side, before: 0, up: 0, ..*self };
        GOING
    }

    fn found(&mut self, words: &mut [u64], at: usize) -> u64 {
        match (self.work, state(words, at)) {
            (1, DATA) => over(self, IDLE, words, YES),
            (2, DELETED) => self.restart(),
            (2, ROUTING) => {
                self.phase = Phase::OnRouting(0);
                GOING
            }
            (3, DATA) => {
                let (l, r) = (link(words, at, 0), link(words, at, 1));
                self.phase = match (l, r) {
                    (0, 0) => Phase::Leaf,
                    (0, _) | (_, 0) => Phase::One(0),
                    _ => Phase::Two(0),
                };
                self.toward = (l == 0) as usize;
                self.other = l | r;
                GOING
            }
            _ => over(self, IDLE, words, NO),
        }
    }

    fn look(&mut self, words: &[u64]) -> u64 {
        let other = link(words, self.prev, 1 - self.side);
        match state(words, self.prev) {
            DATA => self.phase = Phase::UnderData(0),
            ROUTING if other != 0 => {
                self.phase = Phase::UnderRouting(0);
                self.other = other;
            }
            _ => return self.restart(),
        }
        GOING
    }

    fn expects(&self, words: &[u64], n: u8) -> bool {
        let (this, prev) = (self.this, self.prev);
        let leads = |slot: usize, side: usize, to: usize| state(words, slot) != DELETED && link(words, slot, side) == to;
        let leaf = || state(words, this) == DATA && link(words, this, 0) == 0 && link(words, this, 1) == 0;
        match (self.phase, n) {
            (Phase::OnRouting(_), _) => state(words, this) == ROUTING,
            (Phase::Two(_), _) => state(words, this) == DATA && link(words, this, 0) != 0 && link(words, this, 1) != 0,
            (Phase::New(_), 0) => leads(prev, self.side, 0),
            (Phase::New(_), _) => state(words, prev) != DELETED,
            (Phase::One(_), 0) => leads(this, self.toward, self.other),
            (Phase::One(_), 1) => leads(prev, self.side, this),
            (Phase::One(_), _) => state(words, this) == DATA && link(words, this, 1 - self.toward) == 0,
            (Phase::UnderData(_), 2) => state(words, prev) == DATA,
            (Phase::UnderRouting(_), 2) => leads(prev, 1 - self.side, self.other),
            (Phase::UnderRouting(_), 3) => leads(self.before, self.up, prev),
            (Phase::UnderRouting(_), 4) => state(words, prev) == ROUTING,
            (_, 0) => leads(prev, self.side, this),
            _ => leaf(),
        }
    }

    /// The n-th step of a phase that takes locks.
    fn act(&mut self, words: &mut [u64], n: u8) -> u64 {
        let (locks, count) = self.locks();
        if (n as usize) < count {
            let (slot, field, write) = locks[n as usize];
            let x = words[fields_place(slot)] >> LOCK_AT[field] & LOCK;
            let free = if write { x == 0 } else { x != 1 };
            if !free || !self.expects(words, n) {
                self.give_up(words, n as usize);
                return self.restart();
            }
            words[fields_place(slot)] += (if write { 1 } else { 2 }) << LOCK_AT[field];
            return GOING;
        }
        match (self.phase, n as usize - count) {
            (Phase::OnRouting(_), 0) => set_state(words, self.this, DATA),
            (Phase::Two(_), 0) => set_state(words, self.this, ROUTING),
            (Phase::New(_), 0) => return self.new_slot(words),
            (Phase::One(_) | Phase::UnderData(_) | Phase::UnderRouting(_), 0) => set_state(words, self.this, DELETED),
            (Phase::One(_), 1) => set_link(words, self.prev, self.side, self.other),
            (Phase::UnderData(_), 1) => set_link(words, self.prev, self.side, 0),
            (Phase::UnderRouting(_), 1) => set_state(words, self.prev, DELETED),
            (Phase::UnderRouting(_), 2) => set_link(words, self.before, self.up, self.other),
            _ => {
                self.give_up(words, count);
                return over(self, IDLE, words, YES);
            }
        }
        GOING
    }

    fn new_slot(&mut self, words: &mut [u64]) -> u64 {
        let Some(free) = (1..words.len() / SLOT_WORDS).find(|i| state(words, *i) == FREE) else {
            self.give_up(words, 2);
            return over(self, IDLE, words, FULL);
        };
        words[key_place(free)] = self.key;
        words[fields_place(free)] = DATA << STATE_AT;
        set_link(words, self.prev, self.side, free);
        GOING
    }

    pub fn step(&mut self, words: &mut [u64]) -> u64 {
        let n = match self.phase {
            Phase::Walk => return self.walk(words),
            Phase::Leaf => return self.look(words),
            Phase::OnRouting(n)
            | Phase::New(n)
            | Phase::Two(n)
            | Phase::One(n)
            | Phase::UnderData(n)
            | Phase::UnderRouting(n) => n,
        };
        let said = self.act(words, n);
        match &mut self.phase {
            Phase::OnRouting(m)
            | Phase::New(m)
            | Phase::Two(m)
            | Phase::One(m)
            | Phase::UnderData(m)
            | Phase::UnderRouting(m) => *m = n + 1,
            _ => {}
        }
        said
    }
}
