//! The compiled library against an independent implementation of the specification: the same calls on the same words,
//! and after each the same answer, words, record and buffers. `PANNUQREIK_CALLS` sets how many calls each test makes.
mod common;
use common::both::{damaged_runs, honest_runs, limits, Compared};
use common::{calls, reference, some_key, Random};
use pannuqreik::raw;

#[derive(Clone)]
struct Compiled;
type Both = common::both::Both<Compiled>;

impl Compared for Compiled {
    const STEPS_ONLY: bool = false;

    fn start(words: &mut [u64], record: &mut [u64], work: u64, key: u64) -> u64 {
        match work {
            reference::LOOKUP => raw::start_lookup(words, record, key),
            reference::INSERT => raw::start_insert(words, record, key),
            _ => raw::start_remove(words, record, key),
        }
    }

    fn step(words: &mut [u64], record: &mut [u64]) -> u64 {
        raw::step(words, record)
    }

    fn fresh(words: &mut [u64]) -> u64 {
        raw::fresh(words)
    }

    fn withdraw(words: &mut [u64], record: &mut [u64]) -> u64 {
        raw::withdraw(words, record)
    }

    fn sweep(words: &mut [u64]) -> u64 {
        raw::sweep(words)
    }

    /// Check, list and first frame.
    fn ask(words: &[u64], r: &mut Random) -> u64 {
        let said = raw::check(words);
        assert_eq!(said, reference::check(words), "check {words:x?}");
        assert!([1, raw::YES, raw::NO].contains(&said));
        let (low, high) = match r.below(4) {
            0 => (0, u64::MAX),
            1 => (u64::MAX, 0),
            _ => (some_key(r, 500), some_key(r, 500)),
        };
        let most = if r.one_in(2) { 4 } else { words.len() as u64 };
        let room = r.below(most) as usize;
        let (mut out, mut count) = (vec![77; room], 77);
        let (mut twin, mut twin_count) = (out.clone(), count);
        let a = raw::list(words, low, high, &mut out, &mut count);
        let b = reference::list(words, low, high, &mut twin, &mut twin_count);
        assert_eq!((a, &out, count), (b, &twin, twin_count), "list {low:x} {high:x} {words:x?}");
        let (mut key, mut twin) = (77, 77);
        let a = raw::first(words, low, &mut key);
        let b = reference::first(words, low, &mut twin);
        assert_eq!((a, key), (b, twin), "first {low:x} {words:x?}");
        3
    }
}

#[test]
fn honest_calls() {
    honest_runs::<Compiled>(calls(300_000));
}

#[test]
fn damaged_tables_and_records() {
    let seen = damaged_runs::<Compiled>(calls(300_000));
    for n in [1, 2, 3, 6, 7, 8] {
        assert!(seen[n] > 0, "no call was refused {n}");
    }
}

#[test]
fn readers_and_seats_to_the_limit() {
    limits::<Compiled>();
}

#[test]
fn records_of_other_lengths() {
    let mut r = Random(6);
    for n in 0..24 {
        let words: Vec<u64> = Both::fresh(4, 1, &mut r).words;
        for work in 0..4 {
            let mut record = vec![0; n];
            if n > 0 {
                record[0] = work;
            }
            let (mut a, mut b) = (words.clone(), words.clone());
            let (mut s, mut t) = (record.clone(), record.clone());
            assert_eq!(raw::step(&mut a, &mut s), reference::step(&mut b, &mut t));
            assert_eq!((&a, &s), (&b, &t));
            assert_eq!(raw::withdraw(&mut a, &mut s), reference::withdraw(&mut b, &mut t));
            let key = some_key(&mut r, 9);
            assert_eq!(raw::start_insert(&mut a, &mut s, key), reference::start(&mut b, &mut t, 2, key));
            assert_eq!((&a, &s), (&b, &t));
        }
    }
}
