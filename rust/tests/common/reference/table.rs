//! The table: rule 1, what is sound, and the calls between steps.
use super::layout::{fields_place, key_place, slot_places, slots_in, words_for};
use super::layout::{BUSY, LINKS, LOCKS, REST, ROOT_REST, STATE};
use super::layout::{FEWEST_SLOTS, MOST_BUSY, MOST_READERS, MOST_SLOTS, ROOT_KEY};
use super::{DATA, DELETED, DONE, FREE, NO, ROUTING, YES};
use crate::common::reference_keys::legal;

/// A slot's second word, taken apart. Links and locks are by side: left, right; the state's lock comes first.
#[derive(Clone, Copy, Default)]
pub struct Pair {
    pub state: u64,
    pub link: [u64; 2],
    pub lock: [u64; 3],
    pub busy: u64,
    pub rest: u64,
}

pub fn pair(words: &[u64], i: u64) -> Pair {
    let w = words[fields_place(i as usize)];
    let root = i == 0;
    Pair {
        state: STATE.of(w),
        link: LINKS.map(|f| f.of(w)),
        lock: LOCKS.map(|f| f.of(w)),
        busy: if root { BUSY.of(w) } else { 0 },
        rest: w & if root { ROOT_REST } else { REST },
    }
}

pub fn put(words: &mut [u64], i: u64, p: Pair) {
    let links = LINKS.iter().zip(p.link).map(|(f, x)| f.holding(x));
    let locks = LOCKS.iter().zip(p.lock).map(|(f, x)| f.holding(x));
    let all = STATE.holding(p.state) | BUSY.holding(p.busy) | p.rest;
    words[fields_place(i as usize)] = links.chain(locks).fold(all, |w, f| w | f);
}

/// A slot that is data, with no child and no lock.
pub fn put_data(words: &mut [u64], i: u64, key: u64) {
    words[key_place(i as usize)] = key;
    put(words, i, Pair { state: DATA, ..Pair::default() });
}

pub fn key(words: &[u64], i: u64) -> u64 {
    words[key_place(i as usize)]
}

/// Is the slot as a free one has to be?
pub fn zero(words: &[u64], i: u64) -> bool {
    words[slot_places(i as usize)].iter().all(|w| *w == 0)
}

pub fn slots(words: &[u64]) -> u64 {
    slots_in(words.len()) as u64
}

pub fn size_fine(words: &[u64]) -> bool {
    let slots = slots_in(words.len());
    words.len() == words_for(slots) && (FEWEST_SLOTS..=MOST_SLOTS).contains(&slots)
}

pub fn lock_fine(x: u64) -> bool {
    x <= 2 * MOST_READERS && (x == 1 || x.is_multiple_of(2))
}

/// Links within the table, locks as they may be, no other bit.
pub fn bits_fine(words: &[u64], i: u64) -> bool {
    let p = pair(words, i);
    p.link.iter().all(|l| *l < slots(words)) && p.lock.iter().all(|x| lock_fine(*x)) && p.rest == 0
}

pub fn rule_1(words: &[u64]) -> bool {
    if !size_fine(words) {
        return false;
    }
    let p = pair(words, 0);
    key(words, 0) == ROOT_KEY && p.state == DATA && p.link[1] == 0 && p.busy <= MOST_BUSY && bits_fine(words, 0)
}

pub fn damaged(words: &[u64], i: u64) -> bool {
    pair(words, i).state == FREE || !bits_fine(words, i)
}

pub fn fresh(words: &mut [u64]) -> u64 {
    if !size_fine(words) {
        return 1;
    }
    words.fill(0);
    put_data(words, 0, ROOT_KEY);
    DONE
}

/// The slots that links from the root reach, with the root; none where the table is not sound.
pub fn reached(words: &[u64]) -> Option<Vec<bool>> {
    let n = slots(words);
    for i in 1..n {
        let free = pair(words, i).state == FREE;
        if if free { !zero(words, i) } else { !bits_fine(words, i) } {
            return None;
        }
    }
    let mut seen = vec![false; n as usize];
    seen[0] = true;
    // a slot, and the bounds that its ancestors set: both exclusive, the lower one plus one
    let mut todo = vec![(pair(words, 0).link[0], 0u128, ROOT_KEY as u128)];
    while let Some((i, low, high)) = todo.pop() {
        if i == 0 {
            continue;
        }
        let (key, p) = (key(words, i), pair(words, i));
        let within = low <= key as u128 && (key as u128) < high;
        if seen[i as usize] || p.state == FREE || !within || !legal(key) {
            return None;
        }
        if p.state == ROUTING && p.link.contains(&0) {
            return None;
        }
        seen[i as usize] = true;
        todo.push((p.link[0], low, key as u128));
        todo.push((p.link[1], key as u128 + 1, high));
    }
    let lost = (1..n).any(|i| matches!(pair(words, i).state, DATA | ROUTING) && !seen[i as usize]);
    if lost {
        None
    } else {
        Some(seen)
    }
}

pub fn check(words: &[u64]) -> u64 {
    if !rule_1(words) {
        return 1;
    }
    if reached(words).is_some() {
        YES
    } else {
        NO
    }
}

/// The keys of the set between the bounds, sorted as numbers; or a refusal.
pub fn keys(words: &[u64], low: u64, high: u64) -> Result<Vec<u64>, u64> {
    if !rule_1(words) {
        return Err(1);
    }
    let seen = reached(words).ok_or(6u64)?;
    let mut keys: Vec<u64> = (1..slots(words))
        .filter(|i| seen[*i as usize] && pair(words, *i).state == DATA)
        .map(|i| key(words, i))
        .filter(|k| low <= *k && *k <= high)
        .collect();
    keys.sort_unstable();
    Ok(keys)
}

pub fn list(words: &[u64], low: u64, high: u64, out: &mut [u64], count: &mut u64) -> u64 {
    match keys(words, low, high) {
        Err(n) => n,
        Ok(keys) if keys.len() > out.len() => 11,
        Ok(keys) => {
            out[..keys.len()].copy_from_slice(&keys);
            *count = keys.len() as u64;
            DONE
        }
    }
}

pub fn first(words: &[u64], from: u64, key: &mut u64) -> u64 {
    match keys(words, from, u64::MAX) {
        Err(n) => n,
        Ok(keys) if keys.is_empty() => 13,
        Ok(keys) => {
            *key = keys[0];
            DONE
        }
    }
}

pub fn sweep(words: &mut [u64]) -> u64 {
    if !rule_1(words) {
        return 1;
    }
    if pair(words, 0).busy != 0 {
        return 8;
    }
    let Some(seen) = reached(words) else { return 6 };
    let all = 0..slots(words);
    if all.clone().any(|i| pair(words, i).lock != [0, 0, 0]) {
        return 6;
    }
    if all.clone().any(|i| pair(words, i).state == DELETED && seen[i as usize]) {
        return 6;
    }
    for i in all {
        if pair(words, i).state == DELETED {
            words[slot_places(i as usize)].fill(0);
        }
    }
    DONE
}
