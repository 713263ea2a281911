//! States of a small world, each packed into one number.
use super::reference::layout::{key_place, words_for, ROOT_KEY};
use super::reference::table::{key, pair, put, Pair};
use super::reference_keys;
use pannuqreik::raw;
use std::hash::Hasher;

pub const RECORD: usize = raw::RECORD_WORDS;

/// What is remembered of a busy worker's work since its start.
#[derive(Clone, Copy, Default)]
pub struct Past {
    pub was_in: bool,
    pub was_out: bool,
    pub changed: bool,
    pub steps: u64,
}

#[derive(Clone)]
pub struct State {
    pub words: Vec<u64>,
    pub records: [[u64; RECORD]; 2],
    pub pasts: [Past; 2],
}

/// The size of the world: so many slots, and these keys.
pub struct World {
    pub slots: usize,
    pub keys: Vec<u64>,
}

/// A number packed bit by bit, for states: a number that does not fit is a state that cannot be.
struct Bits(u128, u32);

impl Bits {
    fn put(&mut self, value: u64, width: u32) {
        assert!(value < 1 << width, "a number that no honest run has: {value}");
        self.0 |= (value as u128) << self.1;
        self.1 += width;
    }

    fn take(&mut self, width: u32) -> u64 {
        let value = self.0 as u64 & ((1 << width) - 1);
        self.0 >>= width;
        value
    }
}

// a lock is 0, 1 when written, or twice its readers, at most two of them
const LOCKS: [u64; 4] = [0, 1, 2, 4];
// widths of a record's words after the key: phase, this, prev, side, before, up, other, toward, done
const WIDTHS: [u32; 9] = [3, 2, 2, 1, 2, 1, 2, 1, 4];

impl World {
    pub fn new(slots: usize, keys: u64) -> World {
        let key = |n: u64| {
            let mut key = 0;
            reference_keys::pack(&[2024, 6, 15, 9 + n, 58, 7, 0, 1, 100], &mut key);
            key
        };
        World { slots, keys: (0..keys).map(key).collect() }
    }

    pub fn key_number(&self, key: u64) -> u64 {
        match key {
            0 => 0,
            k => 1 + self.keys.iter().position(|x| *x == k).expect("a key that nobody brought") as u64,
        }
    }

    fn key_of(&self, number: u64) -> u64 {
        if number == 0 {
            0
        } else {
            self.keys[number as usize - 1]
        }
    }

    fn pack_worker(&self, b: &mut Bits, r: &[u64; RECORD], p: &Past) {
        b.put(r[0], 2);
        b.put(self.key_number(r[1]), 2);
        for (x, w) in r[2..].iter().zip(WIDTHS) {
            b.put(*x, w);
        }
        let flags = p.was_in as u64 | (p.was_out as u64) << 1 | (p.changed as u64) << 2;
        b.put(flags, 3);
        b.put(p.steps, 3);
    }

    /// The state as one number. The two workers are alike, so the smaller stands first.
    pub fn pack(&self, s: &State) -> u128 {
        let mut b = Bits(0, 0);
        for i in 0..self.slots as u64 {
            let Pair { state, link, lock, busy, rest } = pair(&s.words, i);
            if i > 0 {
                b.put(self.key_number(key(&s.words, i)), 2);
            }
            b.put(state, 2);
            for child in link {
                b.put(child, 2);
            }
            for held in lock {
                b.put(LOCKS.iter().position(|x| *x == held).expect("a lock of two workers") as u64, 2);
            }
            b.put(busy, 2);
            b.put(rest, 0); // it has no bit
        }
        let mut workers = [0, 1].map(|i| {
            let mut w = Bits(0, 0);
            self.pack_worker(&mut w, &s.records[i], &s.pasts[i]);
            w.0
        });
        workers.sort_unstable();
        assert!(b.1 + 2 * 28 <= 128);
        b.0 | workers[0] << b.1 | workers[1] << (b.1 + 28)
    }

    pub fn unpack(&self, packed: u128) -> State {
        let mut b = Bits(packed, 0);
        let mut words = vec![0; words_for(self.slots)];
        for i in 0..self.slots {
            words[key_place(i)] = if i == 0 { ROOT_KEY } else { self.key_of(b.take(2)) };
            let state = b.take(2);
            let link = [(); 2].map(|_| b.take(2));
            let lock = [(); 3].map(|_| LOCKS[b.take(2) as usize]);
            put(&mut words, i as u64, Pair { state, link, lock, busy: b.take(2), rest: 0 });
        }
        let mut records = [[0; RECORD]; 2];
        let mut pasts = [Past::default(); 2];
        for (r, p) in records.iter_mut().zip(&mut pasts) {
            r[0] = b.take(2);
            r[1] = self.key_of(b.take(2));
            for (x, w) in r[2..].iter_mut().zip(WIDTHS) {
                *x = b.take(w);
            }
            let flags = b.take(3);
            *p = Past { was_in: flags & 1 > 0, was_out: flags & 2 > 0, changed: flags & 4 > 0, steps: b.take(3) };
        }
        State { words, records, pasts }
    }
}

/// A state's number is its own hash, stirred.
#[derive(Default)]
pub struct Stir(u64);

impl Hasher for Stir {
    fn finish(&self) -> u64 {
        self.0
    }

    fn write(&mut self, _: &[u8]) {
        unreachable!("a state is a u128");
    }

    fn write_u128(&mut self, n: u128) {
        let x = (n as u64).wrapping_mul(0x9E37_79B9_7F4A_7C15) ^ ((n >> 64) as u64).wrapping_mul(0xC2B2_AE3D_27D4_EB4F);
        self.0 = x ^ (x >> 29);
    }
}
