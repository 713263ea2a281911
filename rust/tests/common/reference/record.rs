//! A worker's record: which words are one, and what of one is damaged.
use super::table::slots;
use super::{INSERT, REMOVE};
use crate::common::reference_keys::legal;

#[derive(Clone, Copy, PartialEq)]
pub enum At {
    Walk,
    OnRouting,
    New,
    Two,
    One,
    Leaf,
    UnderData,
    UnderRouting,
}

pub const PHASES: [At; 8] = [At::Walk, At::OnRouting, At::New, At::Two, At::One, At::Leaf, At::UnderData, At::UnderRouting];

/// What each phase notes: this, prev, side, before, up, other, toward, done.
pub const NOTES: [[bool; 8]; 8] = {
    const Y: bool = true;
    const N: bool = false;
    [
        [Y, Y, Y, Y, Y, N, N, N],
        [Y, N, N, N, N, N, N, Y],
        [N, Y, Y, N, N, N, N, Y],
        [Y, N, N, N, N, N, N, Y],
        [Y, Y, Y, N, N, Y, Y, Y],
        [Y, Y, Y, Y, Y, N, N, N],
        [Y, Y, Y, N, N, N, N, Y],
        [Y, Y, Y, Y, Y, Y, N, Y],
    ]
};

#[derive(Clone, Copy)]
pub struct Record {
    pub work: u64,
    pub key: u64,
    pub at: At,
    pub this: u64,
    pub prev: u64,
    pub side: usize,
    pub before: u64,
    pub up: usize,
    pub other: u64,
    pub toward: usize,
    pub done: u64,
}

pub const WALK: Record =
    Record { work: 0, key: 0, at: At::Walk, this: 0, prev: 0, side: 0, before: 0, up: 0, other: 0, toward: 0, done: 0 };

/// The record that the words are, if they are one.
pub fn read(s: &[u64]) -> Option<Record> {
    let [work, key, phase, this, prev, side, before, up, other, toward, done] = *s else { return None };
    if work > 3 || phase > 7 || side > 1 || up > 1 || toward > 1 {
        return None;
    }
    let noted = [this, prev, side, before, up, other, toward, done];
    if noted.iter().zip(NOTES[phase as usize]).any(|(x, may)| *x != 0 && !may) {
        return None;
    }
    let (side, up, toward) = (side as usize, up as usize, toward as usize);
    Some(Record { work, key, at: PHASES[phase as usize], this, prev, side, before, up, other, toward, done })
}

pub fn write(s: &mut [u64], r: Record) {
    let phase = PHASES.iter().position(|p| *p == r.at).unwrap() as u64;
    let (side, up, toward) = (r.side as u64, r.up as u64, r.toward as u64);
    s.copy_from_slice(&[r.work, r.key, phase, r.this, r.prev, side, r.before, up, r.other, toward, r.done]);
}

pub fn distinct(slots: &[u64]) -> bool {
    (1..slots.len()).all(|i| !slots[..i].contains(&slots[i]))
}

/// No slot beyond the table, none in two roles, none lacking; the phase is one of the work's; the key is legal.
pub fn record_fine(words: &[u64], r: &Record) -> bool {
    let fits = match r.at {
        At::Walk => true,
        At::OnRouting | At::New => r.work == INSERT,
        _ => r.work == REMOVE,
    };
    let named = [r.this, r.prev, r.before, r.other];
    let roles = match r.at {
        At::Walk if r.prev == 0 => r.before == 0,
        At::Walk => r.this != 0 && distinct(&[r.this, r.prev, r.before]),
        At::OnRouting | At::Two => r.this != 0,
        At::New => true,
        At::One => r.this != 0 && r.other != 0 && distinct(&[r.this, r.prev, r.other]),
        At::Leaf if r.prev == 0 => r.this != 0 && r.before == 0,
        At::Leaf => r.this != 0 && distinct(&[r.this, r.prev, r.before]),
        At::UnderData => r.this != 0 && distinct(&[r.this, r.prev]),
        At::UnderRouting => !named[..2].contains(&0) && r.other != 0 && distinct(&named),
    };
    fits && roles && legal(r.key) && named.iter().all(|x| *x < slots(words))
}
