//! Start, step and withdraw.
use super::acts::{acts, holds, Act, Lock};
use super::layout::{MOST_BUSY, MOST_READERS};
use super::record::{read, record_fine, write, At, Record, WALK};
use super::table::{damaged, key, pair, put, put_data, rule_1, slots, zero, Pair};
use super::{DATA, DELETED, DONE, FREE, FULL, GOING, INSERT, LOOKUP, NO, REMOVE, ROUTING, YES};
use crate::common::reference_keys::legal;

/// The words with these locks given up; none where a pair is damaged or a lock is not held.
fn given_up(words: &[u64], done: &[Act]) -> Option<Vec<u64>> {
    let mut after = words.to_vec();
    for act in done {
        let Act::Lock(l) = act else { continue };
        if damaged(words, l.slot) {
            return None;
        }
        let mut p = pair(&after, l.slot);
        match p.lock[l.field] {
            1 if l.write => p.lock[l.field] = 0,
            x if !l.write && x >= 2 && x % 2 == 0 => p.lock[l.field] = x - 2,
            _ => return None,
        }
        put(&mut after, l.slot, p);
    }
    Some(after)
}

fn leave_seat(words: &mut [u64]) {
    let mut root = pair(words, 0);
    root.busy -= 1;
    put(words, 0, root);
}

/// The words and the record after a step, with its answer; none for 6.
type Stepped = Option<(u64, Vec<u64>, Record)>;

fn going(words: Vec<u64>, r: Record) -> Stepped {
    Some((GOING, words, r))
}

fn restart(words: Vec<u64>, r: &Record) -> Stepped {
    going(words, Record { work: r.work, key: r.key, ..WALK })
}

fn ends(answer: u64, mut words: Vec<u64>) -> Stepped {
    leave_seat(&mut words);
    Some((answer, words, WALK))
}

fn walk(words: &[u64], r: &Record) -> Stepped {
    if damaged(words, r.this) {
        return None;
    }
    let (key, p) = (key(words, r.this), pair(words, r.this));
    let words = words.to_vec();
    if key == r.key {
        return match (r.work, p.state) {
            (LOOKUP, DATA) => ends(YES, words),
            (INSERT, DELETED) => restart(words, r),
            (INSERT, ROUTING) => going(words, Record { at: At::OnRouting, prev: 0, side: 0, before: 0, up: 0, ..*r }),
            (REMOVE, DATA) => remove_case(words, r, &p),
            _ => ends(NO, words),
        };
    }
    let side = if r.key < key { 0 } else { 1 };
    match (p.link[side], r.work) {
        (0, INSERT) => going(words, Record { at: At::New, this: 0, prev: r.this, side, before: 0, up: 0, ..*r }),
        (0, _) => ends(NO, words),
        (next, _) => going(words, Record { this: next, prev: r.this, side, before: r.prev, up: r.side, ..*r }),
    }
}

fn remove_case(words: Vec<u64>, r: &Record, p: &Pair) -> Stepped {
    let one = |toward: usize| Record { at: At::One, before: 0, up: 0, other: p.link[toward], toward, ..*r };
    match p.link {
        [0, 0] => going(words, Record { at: At::Leaf, ..*r }),
        [0, _] => going(words, one(1)),
        [_, 0] => going(words, one(0)),
        _ => going(words, Record { at: At::Two, prev: 0, side: 0, before: 0, up: 0, ..*r }),
    }
}

/// A leaf's remover only reads previous.
fn look(words: &[u64], r: &Record) -> Stepped {
    if damaged(words, r.prev) {
        return None;
    }
    let p = pair(words, r.prev);
    let other = p.link[1 - r.side];
    let words = words.to_vec();
    match p.state {
        DATA => going(words, Record { at: At::UnderData, before: 0, up: 0, ..*r }),
        ROUTING if other != 0 => going(words, Record { at: At::UnderRouting, other, ..*r }),
        _ => restart(words, r),
    }
}

fn take_lock(words: &[u64], r: &Record, l: Lock, done: &[Act]) -> Result<Stepped, u64> {
    if damaged(words, l.slot) {
        return Ok(None);
    }
    let mut p = pair(words, l.slot);
    let x = p.lock[l.field];
    let conflict = if l.write { x != 0 } else { x == 1 };
    if !holds(&p, l.expects) || conflict {
        return Ok(given_up(words, done).and_then(|after| restart(after, r)));
    }
    if !l.write && x == 2 * MOST_READERS {
        return Err(9);
    }
    p.lock[l.field] = if l.write { 1 } else { x + 2 };
    let mut after = words.to_vec();
    put(&mut after, l.slot, p);
    Ok(going(after, Record { done: r.done + 1, ..*r }))
}

fn new_slot(words: &[u64], r: &Record, done: &[Act]) -> Stepped {
    if damaged(words, r.prev) {
        return None;
    }
    let Some(free) = (1..slots(words)).find(|i| pair(words, *i).state == FREE) else {
        return given_up(words, done).and_then(|after| ends(FULL, after));
    };
    if !zero(words, free) {
        return None;
    }
    let mut after = words.to_vec();
    put_data(&mut after, free, r.key);
    let mut p = pair(words, r.prev);
    p.link[r.side] = free;
    put(&mut after, r.prev, p);
    going(after, Record { done: r.done + 1, ..*r })
}

fn store(words: &[u64], r: &Record, slot: u64, change: impl Fn(&mut Pair)) -> Stepped {
    if damaged(words, slot) {
        return None;
    }
    let mut after = words.to_vec();
    let mut p = pair(words, slot);
    change(&mut p);
    put(&mut after, slot, p);
    going(after, Record { done: r.done + 1, ..*r })
}

/// A step of a busy record that is not damaged.
fn busy_step(words: &[u64], r: &Record) -> Result<Stepped, u64> {
    match r.at {
        At::Walk => return Ok(walk(words, r)),
        At::Leaf => return Ok(look(words, r)),
        _ => {}
    }
    let acts = acts(r);
    if r.done >= acts.len() as u64 {
        return Ok(None);
    }
    let done = &acts[..r.done as usize];
    Ok(match acts[r.done as usize] {
        Act::Lock(l) => return take_lock(words, r, l, done),
        Act::State(slot, to) => store(words, r, slot, |p| p.state = to),
        Act::Link(slot, side, to) => store(words, r, slot, |p| p.link[side] = to),
        Act::NewSlot => new_slot(words, r, done),
        Act::End => given_up(words, done).and_then(|after| ends(YES, after)),
    })
}

/// Rules 1, 6 for words that are no record, and 2; the record otherwise.
fn judged(words: &[u64], record: &[u64], idle: bool) -> Result<Record, u64> {
    if !rule_1(words) {
        return Err(1);
    }
    let r = read(record).ok_or(6u64)?;
    if (r.work == 0) != idle {
        return Err(2);
    }
    if !idle && (!record_fine(words, &r) || pair(words, 0).busy == 0) {
        return Err(6);
    }
    Ok(r)
}

pub fn step(words: &mut [u64], record: &mut [u64]) -> u64 {
    let r = match judged(words, record, false) {
        Ok(r) => r,
        Err(n) => return n,
    };
    match busy_step(words, &r) {
        Err(n) => n,
        Ok(None) => 6,
        Ok(Some((answer, after, r))) => {
            words.copy_from_slice(&after);
            write(record, r);
            answer
        }
    }
}

pub fn start(words: &mut [u64], record: &mut [u64], work: u64, key: u64) -> u64 {
    if let Err(n) = judged(words, record, true) {
        return n;
    }
    if !legal(key) {
        return 3;
    }
    let mut root = pair(words, 0);
    if root.busy >= MOST_BUSY {
        return 4;
    }
    root.busy += 1;
    put(words, 0, root);
    write(record, Record { work, key, ..WALK });
    DONE
}

pub fn withdraw(words: &mut [u64], record: &mut [u64]) -> u64 {
    let r = match judged(words, record, false) {
        Ok(r) => r,
        Err(n) => return n,
    };
    let acts = acts(&r);
    if r.done > 0 && r.done >= acts.len() as u64 {
        return 6;
    }
    let done = &acts[..r.done as usize];
    let Some(mut after) = given_up(words, done) else { return 6 };
    if done.iter().any(|a| !matches!(a, Act::Lock(_))) {
        return 7;
    }
    leave_seat(&mut after);
    words.copy_from_slice(&after);
    write(record, WALK);
    DONE
}
