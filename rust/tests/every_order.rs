//! Every order of calls, on the compiled code: all states that two workers can bring a small table to, by start, step,
//! withdraw and sweep in any order from a fresh table. At every state and call the product owner's third demand is held to
//! the words: the table is sound; only a step of an insert or remove changes the set, by its own key, at most once; it ends
//! with yes exactly if it did; every no, and each answer to a lookup, was true at some moment since the start; a lookup ends
//! within as many steps as there are slots. Where nobody is busy, each work run alone is held to the second demand.
mod common;
use common::reference::layout::words_for;
use common::reference::table::{key, pair, slots};
use common::reference::{FREE, INSERT, LOOKUP, REMOVE, ROUTING};
use common::states::{Past, State, Stir, World, RECORD};
use pannuqreik::raw;
use std::collections::HashSet;
use std::hash::BuildHasherDefault;

fn start(words: &mut [u64], record: &mut [u64], work: u64, key: u64) -> u64 {
    match work {
        LOOKUP => raw::start_lookup(words, record, key),
        INSERT => raw::start_insert(words, record, key),
        _ => raw::start_remove(words, record, key),
    }
}

/// Is no slot free?
fn full(words: &[u64]) -> bool {
    (0..slots(words)).all(|i| pair(words, i).state != FREE)
}

/// Is the key in a routing slot?
fn routes(words: &[u64], wanted: u64) -> bool {
    (0..slots(words)).any(|i| key(words, i) == wanted && pair(words, i).state == ROUTING)
}

fn note(p: &mut Past, is_in: bool) {
    p.was_in |= is_in;
    p.was_out |= !is_in;
}

impl World {
    /// The set, as a bit for each key; the table has to be sound.
    fn set(&self, words: &[u64]) -> u64 {
        assert_eq!(raw::check(words), raw::YES, "not sound: {words:x?}");
        let (mut out, mut count) = ([0; 4], 0);
        assert_eq!(raw::list(words, 0, u64::MAX, &mut out, &mut count), 0);
        out[..count as usize].iter().fold(0, |set, k| set | self.bit(*k))
    }

    fn bit(&self, key: u64) -> u64 {
        1 << self.key_number(key)
    }

    /// Every busy worker's past, after a call.
    fn note_all(&self, s: &mut State, set: u64) {
        for i in 0..2 {
            if s.records[i][0] != 0 {
                note(&mut s.pasts[i], set & self.bit(s.records[i][1]) != 0);
            }
        }
    }

    /// One step of worker i, held to the demand; the state after it.
    fn step(&self, before: &State, i: usize, set: u64) -> State {
        let mut s = before.clone();
        let (work, key) = (s.records[i][0], s.records[i][1]);
        let said = raw::step(&mut s.words, &mut s.records[i]);
        let after = self.set(&s.words);
        let mut p = s.pasts[i];
        p.steps += (work == LOOKUP) as u64;
        assert!(p.steps <= self.slots as u64, "a lookup of too many steps");
        if after != set {
            let own = match work {
                INSERT => set | self.bit(key),
                REMOVE => set & !self.bit(key),
                _ => set,
            };
            assert_eq!(after, own, "the set changed by another key");
            assert!(!p.changed, "the set changed twice");
            p.changed = true;
        }
        note(&mut p, after & self.bit(key) != 0);
        s.pasts[i] = p;
        self.note_all(&mut s, after);
        match said {
            raw::DONE => assert_eq!(s.records[i][0], work),
            raw::YES if work == LOOKUP => assert!(p.was_in, "yes, and it never was in"),
            raw::YES => assert!(p.changed, "yes, and nothing changed"),
            raw::NO if work == INSERT => assert!(!p.changed && p.was_in, "no, and it never was in"),
            raw::NO => assert!(!p.changed && p.was_out, "no, and it never was out"),
            raw::FULL => assert!(work == INSERT && !p.changed && full(&before.words)),
            n => panic!("an honest step was refused {n}"),
        }
        if said != raw::DONE {
            assert_eq!(s.records[i], [0; RECORD]);
            s.pasts[i] = Past::default();
        }
        s
    }

    /// Whole works run alone, where nobody is busy: within slots plus 10 steps, with the answer that the set gives.
    fn alone(&self, s: &State, set: u64) {
        for (work, key) in self.works() {
            let (mut words, mut record) = (s.words.clone(), [0; RECORD]);
            assert_eq!(start(&mut words, &mut record, work, key), 0);
            let last = (0..self.slots + 10).map(|_| raw::step(&mut words, &mut record)).find(|a| *a != raw::DONE);
            let (is_in, after) = (set & self.bit(key) != 0, self.set(&words));
            let right = match (work, is_in) {
                (LOOKUP, true) | (REMOVE, true) => raw::YES,
                (LOOKUP, false) | (REMOVE, false) | (INSERT, true) => raw::NO,
                _ if full(&s.words) && !routes(&s.words, key) => raw::FULL,
                _ => raw::YES,
            };
            assert_eq!(last, Some(right));
            let changed = if right == raw::YES && work != LOOKUP { self.bit(key) } else { 0 };
            assert_eq!(after, set ^ changed);
        }
    }

    fn works(&self) -> Vec<(u64, u64)> {
        [LOOKUP, INSERT, REMOVE].iter().flat_map(|w| self.keys.iter().map(|k| (*w, *k))).collect()
    }

    /// Every state that one call makes of this one.
    fn calls(&self, packed: u128, next: &mut impl FnMut(u128)) {
        let here = self.unpack(packed);
        let set = self.set(&here.words);
        for i in 0..2 {
            if here.records[i][0] == 0 {
                for (work, key) in self.works() {
                    let mut s = here.clone();
                    assert_eq!(start(&mut s.words, &mut s.records[i], work, key), 0);
                    assert_eq!(self.set(&s.words), set);
                    self.note_all(&mut s, set);
                    next(self.pack(&s));
                }
                continue;
            }
            next(self.pack(&self.step(&here, i, set)));
            let mut s = here.clone();
            match raw::withdraw(&mut s.words, &mut s.records[i]) {
                7 => assert_eq!((&s.words, s.records), (&here.words, here.records)),
                said => {
                    assert_eq!((said, s.records[i]), (0, [0; RECORD]));
                    assert_eq!(self.set(&s.words), set);
                    assert!(!s.pasts[i].changed);
                    s.pasts[i] = Past::default();
                    next(self.pack(&s));
                }
            }
        }
        let mut s = here.clone();
        let idle = here.records.iter().all(|r| r[0] == 0);
        assert_eq!(raw::sweep(&mut s.words), if idle { 0 } else { 8 });
        assert_eq!(self.set(&s.words), set);
        if idle {
            self.alone(&here, set);
            next(self.pack(&s));
        } else {
            assert_eq!(s.words, here.words);
        }
    }
}

/// Explores all; how many states and calls there were.
fn explore(slots: usize, keys: u64) -> (usize, u64) {
    let world = World::new(slots, keys);
    let mut words = vec![0; words_for(slots)];
    assert_eq!(raw::fresh(&mut words), 0);
    let first = world.pack(&State { words, records: [[0; RECORD]; 2], pasts: [Past::default(); 2] });
    let mut seen: HashSet<u128, BuildHasherDefault<Stir>> = HashSet::default();
    let mut todo = vec![first];
    seen.insert(first);
    let mut calls = 0;
    while let Some(s) = todo.pop() {
        world.calls(s, &mut |t| {
            calls += 1;
            if seen.insert(t) {
                todo.push(t);
            }
        });
    }
    println!("{slots} slots, 2 workers, {keys} keys: {} states, {calls} calls", seen.len());
    (seen.len(), calls)
}

#[test]
fn two_slots_and_two_keys() {
    assert!(explore(2, 2).0 > 100);
}

#[test]
fn three_slots_and_two_keys() {
    assert!(explore(3, 2).0 > 1_000);
}

#[test]
fn three_slots_and_three_keys() {
    assert!(explore(3, 3).0 > 10_000);
}

/// The first size that has every case: a routing slot with two children under a slot that is not the root needs four.
#[test]
#[ignore = "some ten seconds in a release build"]
fn four_slots_and_three_keys() {
    assert!(explore(4, 3).0 > 1_000_000);
}
