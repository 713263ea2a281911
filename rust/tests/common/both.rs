//! The same calls on one state that is kept twice, by the reference and by what is compared with it: honest runs, and
//! states that are damaged.
use super::reference::layout::{fields_place, slots_in, words_for, LINKS, LOCKS, STATE};
use super::reference::layout::{MOST_BUSY, MOST_READERS, MOST_SLOTS};
use super::{reference, some_key, Random};
use pannuqreik::raw;
use std::marker::PhantomData;

pub const RECORD: usize = raw::RECORD_WORDS;

/// What is compared with the reference. What it does not have itself, the reference does for it.
pub trait Compared: Clone {
    /// Are start and step all that it has?
    const STEPS_ONLY: bool;
    fn start(words: &mut [u64], record: &mut [u64], work: u64, key: u64) -> u64;
    fn step(words: &mut [u64], record: &mut [u64]) -> u64;
    fn fresh(words: &mut [u64]) -> u64 {
        reference::fresh(words)
    }
    fn withdraw(words: &mut [u64], record: &mut [u64]) -> u64 {
        reference::withdraw(words, record)
    }
    fn sweep(words: &mut [u64]) -> u64 {
        reference::sweep(words)
    }
    /// Compares the calls that change nothing; how many they were.
    fn ask(_words: &[u64], _r: &mut Random) -> u64 {
        0
    }
}

/// One state, kept twice: the compared one's and the reference's.
#[derive(Clone)]
pub struct Both<C> {
    pub words: Vec<u64>,
    pub twin: Vec<u64>,
    pub records: Vec<[u64; RECORD]>,
    pub twins: Vec<[u64; RECORD]>,
    pub calls: u64,
    compared: PhantomData<C>,
}

impl<C: Compared> Both<C> {
    pub fn fresh(slots: usize, workers: usize, r: &mut Random) -> Both<C> {
        let words: Vec<u64> = (0..words_for(slots)).map(|_| r.next()).collect();
        let records = vec![[0; RECORD]; workers];
        let (twin, twins) = (words.clone(), records.clone());
        let mut both = Both { words, twin, records, twins, calls: 0, compared: PhantomData };
        both.same(|words, _| C::fresh(words), |words, _| reference::fresh(words), 0);
        both
    }

    /// The same call on both, on record i; the answer.
    fn same(
        &mut self,
        call: impl Fn(&mut [u64], &mut [u64]) -> u64,
        twin: impl Fn(&mut [u64], &mut [u64]) -> u64,
        i: usize,
    ) -> u64 {
        let before = (self.words.clone(), self.records[i]);
        let said = call(&mut self.words, &mut self.records[i]);
        let right = twin(&mut self.twin, &mut self.twins[i]);
        self.calls += 1;
        let fine = said == right && self.words == self.twin && self.records[i] == self.twins[i];
        assert!(
            fine,
            "answer {said} {:x?}\nreference {right} {:x?}\nwords {:x?}\nrecord {:x?}",
            self.records[i], self.twins[i], before.0, before.1
        );
        said
    }

    pub fn step(&mut self, i: usize) -> u64 {
        self.same(C::step, reference::step, i)
    }

    pub fn withdraw(&mut self, i: usize) -> u64 {
        self.same(C::withdraw, reference::withdraw, i)
    }

    pub fn start(&mut self, i: usize, work: u64, key: u64) -> u64 {
        self.same(|w, s| C::start(w, s, work, key), |w, s| reference::start(w, s, work, key), i)
    }

    pub fn sweep(&mut self) -> u64 {
        self.same(|w, _| C::sweep(w), |w, _| reference::sweep(w), 0)
    }

    /// The calls that change nothing.
    fn ask(&mut self, r: &mut Random) {
        self.calls += C::ask(&self.words, r);
    }
}

/// One call that an honest event loop might make.
fn honest<C: Compared>(both: &mut Both<C>, r: &mut Random, spread: u64) {
    let i = r.below(both.records.len() as u64) as usize;
    match r.below(200) {
        0 => {
            both.withdraw(i);
        }
        1 => {
            both.sweep();
        }
        2 => both.ask(r),
        _ if both.records[i][0] == 0 && !r.one_in(50) => {
            let work = if r.one_in(8) { 1 } else { 2 + r.below(2) };
            let key = some_key(r, spread);
            both.start(i, work, key);
        }
        _ => {
            both.step(i);
        }
    }
}

/// So many calls of honest runs: workers on tables of all sizes, in a random order.
pub fn honest_runs<C: Compared>(most: u64) {
    let (mut r, mut made) = (Random(1), 0);
    let mut answers = [0u64; 18];
    while made < most {
        let slots = *r.pick(&[2, 3, 4, 5, 8, 16, 40, 64, 256, MOST_SLOTS]);
        let workers = 1 + r.below(MOST_BUSY) as usize;
        let spread = *r.pick(&[3, 6, slots, slots + slots]) as u64;
        let mut both = Both::<C>::fresh(slots, workers, &mut r);
        for _ in 0..(most / 50).clamp(2_000, 200_000) {
            honest(&mut both, &mut r, spread);
            let i = r.below(workers as u64) as usize;
            answers[both.step(i) as usize] += 1;
        }
        made += both.calls;
    }
    for answer in [0, 2, raw::YES, raw::NO, raw::FULL] {
        assert!(answers[answer as usize] > 0, "no step answered {answer}");
    }
    println!("honest runs: {made} calls");
}

/// A record made by hand: mostly near what records are.
fn made_record(r: &mut Random, slots: u64) -> [u64; RECORD] {
    let mut s = [0; RECORD];
    s[0] = r.below(4);
    s[1] = if r.one_in(10) { r.next() } else { some_key(r, 6) };
    s[2] = r.below(8);
    let notes: [&[usize]; 8] = [
        &[3, 4, 5, 6, 7],
        &[3, 10],
        &[4, 5, 10],
        &[3, 10],
        &[3, 4, 5, 8, 9, 10],
        &[3, 4, 5, 6, 7],
        &[3, 4, 5, 10],
        &[3, 4, 5, 6, 7, 8, 10],
    ];
    let (slots, done) = (slots + r.below(2), if r.one_in(20) { 20 } else { 9 });
    for &i in notes[s[2] as usize] {
        s[i] = match i {
            5 | 7 | 9 => r.below(2),
            10 => r.below(done),
            _ if r.one_in(30) => r.next(),
            _ => r.below(slots),
        };
    }
    if r.one_in(12) {
        s[r.below(RECORD as u64) as usize] = r.below(3);
    }
    s
}

/// One word of the table, changed: a bit, a field, or all of it.
fn damage(words: &mut [u64], r: &mut Random) {
    let i = r.below(words.len() as u64) as usize;
    match r.below(6) {
        0 => words[i] = r.next(),
        1 => words[i] = 0,
        2 => words[i] ^= r.pick(&LOCKS).holding(r.below(LOCKS[0].size())),
        3 => words[i] ^= r.pick(&LINKS).holding(r.below(8)),
        4 => words[i] ^= STATE.holding(r.below(STATE.size())),
        _ => words[i] ^= 1 << r.below(64),
    }
}

/// Every call, on a state that is as it is.
fn every_call<C: Compared>(both: &Both<C>, r: &mut Random, made: &mut u64, refusals: &mut [u64; 18]) {
    for call in 0..if C::STEPS_ONLY { 3 } else { 6 } {
        let mut b = both.clone();
        let i = r.below(b.records.len() as u64) as usize;
        let said = match call {
            0 | 1 => b.step(i),
            2 => {
                let key = if r.one_in(6) { r.next() } else { some_key(r, 6) };
                b.start(i, 1 + r.below(3), key)
            }
            3 => b.withdraw(i),
            4 => b.sweep(),
            _ => {
                b.ask(r);
                0
            }
        };
        refusals[said as usize] += 1;
        *made += b.calls - both.calls;
    }
}

/// The state with some of its words and records damaged.
fn damaged<C: Compared>(both: &Both<C>, r: &mut Random) -> Both<C> {
    let (mut b, slots) = (both.clone(), slots_in(both.words.len()) as u64);
    for _ in 0..r.below(3) {
        damage(&mut b.words, r);
    }
    if r.one_in(20) {
        b.words.pop();
    }
    if r.one_in(30) {
        b.words.resize(words_for(MOST_SLOTS + 1), 0);
    }
    b.twin = b.words.clone();
    for i in 0..b.records.len() {
        if r.one_in(3) {
            b.records[i] = made_record(r, slots);
        }
        if r.one_in(20) {
            b.records[i][r.below(RECORD as u64) as usize] ^= 1 << r.below(64);
        }
    }
    b.twins = b.records.clone();
    b
}

/// So many calls on damaged tables and records; how many were refused, by number.
pub fn damaged_runs<C: Compared>(most: u64) -> [u64; 18] {
    let (mut r, mut made) = (Random(2), 0);
    let mut seen = [0; 18];
    while made < most {
        let slots = if r.one_in(60) { MOST_SLOTS } else { *r.pick(&[2, 3, 4, 5, 6, 8, 16]) };
        let mut both = Both::<C>::fresh(slots, 1 + r.below(6) as usize, &mut r);
        for _ in 0..r.below(120) {
            honest(&mut both, &mut r, 6);
        }
        for _ in 0..6 {
            let b = damaged(&both, &mut r);
            every_call(&b, &mut r, &mut made, &mut seen);
        }
    }
    println!("damaged: {made} calls");
    seen
}

/// Readers and seats up to the limit.
pub fn limits<C: Compared>() {
    let mut r = Random(5);
    let most = MOST_BUSY as usize;
    let mut both = Both::<C>::fresh(8, most + 1, &mut r);
    let (a, b) = (some_key(&mut r, 1), some_key(&mut Random(9), 4000));
    assert_ne!(a, b);
    for i in 0..most {
        assert_eq!(both.start(i, reference::INSERT, b), 0);
    }
    assert_eq!(both.start(most, reference::INSERT, b), 4);
    // a table by hand: the root's state lock has all readers but one, then all, and an insert wants to read it
    for (readers, answer) in [(MOST_READERS - 1, 0), (MOST_READERS, 9)] {
        let mut c = Both::<C>::fresh(8, 1, &mut r);
        assert_eq!(c.start(0, reference::INSERT, a), 0);
        assert_eq!((c.step(0), c.step(0)), (0, 0)); // the walk's end, and the edge
        c.words[fields_place(0)] += LOCKS[0].holding(2 * readers);
        c.twin = c.words.clone();
        assert_eq!(c.step(0), answer);
    }
}
