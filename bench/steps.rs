// Measures the library's calls against plain code, in one run: ratios of times, or, under `steps count ..`, the same work for
// valgrind to count. bench/steps builds and runs both.
#[path = "steps_cases.rs"]
mod cases;
#[path = "steps_judged.rs"]
mod judged;
#[path = "steps_plain.rs"]
mod plain;
#[path = "../rust/src/raw.rs"]
#[allow(dead_code)]
mod raw;

use judged::rules::{
    links, BUSY, BUSY_AT, FIELDS, KEY, LEFT_LOCK_AT, LOCK, RIGHT_LOCK_AT, ROOT_REST, SEAT, SLOT_WORDS, STATE_AT, STATE_LOCK_AT,
};
use judged::Judged;
use plain::{Plain, IDLE};
use std::collections::BTreeSet;
use std::hint::black_box;
use std::time::Instant;

const LOOKUP: u64 = 1;
const INSERT: u64 = 2;
const REMOVE: u64 = 3;

/// What is measured: whole works of the library, of plain code, of a `BTreeSet`.
trait Works {
    /// A whole work; how many steps it took.
    fn work(&mut self, work: u64, key: u64) -> u64;
    fn words(&self) -> &[u64];
}

#[derive(Clone)]
struct Library {
    words: Vec<u64>,
    record: [u64; raw::RECORD_WORDS],
}

impl Works for Library {
    fn work(&mut self, work: u64, key: u64) -> u64 {
        match work {
            LOOKUP => raw::start_lookup(&mut self.words, &mut self.record, key),
            INSERT => raw::start_insert(&mut self.words, &mut self.record, key),
            _ => raw::start_remove(&mut self.words, &mut self.record, key),
        };
        let mut steps = 1;
        while raw::step(&mut self.words, &mut self.record) == raw::DONE {
            steps += 1;
        }
        steps
    }

    fn words(&self) -> &[u64] {
        &self.words
    }
}

/// What a step written by hand answers.
const GOING: u64 = 0;
const FULL: u64 = 5;
const YES: u64 = 16;
const NO: u64 = 17;

/// The end of a work written by hand: the seat is given up, and the record is idle.
fn over<R>(record: &mut R, idle: R, words: &mut [u64], answer: u64) -> u64 {
    words[FIELDS] -= SEAT;
    *record = idle;
    answer
}

/// A record that code written by hand keeps in place.
trait ByHand {
    fn begin(&mut self, words: &mut [u64], work: u64, key: u64);
    /// One step: does the work go on?
    fn goes(&mut self, words: &mut [u64]) -> bool;
}

impl ByHand for Plain {
    fn begin(&mut self, words: &mut [u64], work: u64, key: u64) {
        self.start(words, work, key);
    }
    fn goes(&mut self, words: &mut [u64]) -> bool {
        self.step(words) == GOING
    }
}

impl ByHand for Judged {
    fn begin(&mut self, words: &mut [u64], work: u64, key: u64) {
        self.start(words, work, key);
    }
    fn goes(&mut self, words: &mut [u64]) -> bool {
        self.step(words) == GOING
    }
}

#[derive(Clone)]
struct Table<R> {
    words: Vec<u64>,
    record: R,
}

impl<R: ByHand> Works for Table<R> {
    fn work(&mut self, work: u64, key: u64) -> u64 {
        self.record.begin(&mut self.words, work, key);
        let mut steps = 1;
        while self.record.goes(&mut self.words) {
            steps += 1;
        }
        steps
    }

    fn words(&self) -> &[u64] {
        &self.words
    }
}

#[derive(Clone)]
struct Tree(BTreeSet<u64>);

impl Works for Tree {
    fn work(&mut self, work: u64, key: u64) -> u64 {
        match work {
            LOOKUP => self.0.contains(&key),
            INSERT => self.0.insert(key),
            _ => self.0.remove(&key),
        };
        1
    }

    fn words(&self) -> &[u64] {
        &[]
    }
}

/// So many legal keys of one day in August, in a random order.
fn keys(n: usize, day: u64) -> Vec<u64> {
    let mut x = 88172645463325252u64;
    let mut keys: Vec<u64> = Vec::new();
    for i in 0..n as u64 {
        let mut key = 0;
        let fields = [2024, 8, day, 10 + i / 3600, i / 60 % 60, i % 60, 0, 1, i];
        assert_eq!(raw::pack(&fields, &mut key), 0);
        keys.push(key);
        x ^= x << 13;
        x ^= x >> 7;
        x ^= x << 17;
        keys.swap(i as usize, (x % (i + 1)) as usize);
    }
    keys
}

/// A table three quarters full.
fn filled(slots: usize) -> (Library, Vec<u64>) {
    let mut l = Library { words: vec![0; raw::words_for(slots)], record: [0; raw::RECORD_WORDS] };
    assert_eq!(raw::fresh(&mut l.words), 0);
    let keys = keys(slots * 3 / 4, 15);
    for key in &keys {
        l.work(INSERT, *key);
    }
    assert_eq!(raw::check(&l.words), raw::YES);
    (l, keys)
}

/// One round: look all keys up; or take some out and put them in again, as many as there is room for.
fn round(w: &mut impl Works, keys: &[u64], change: bool) -> (u64, u64) {
    let (mut steps, mut works) = (0, 0);
    let some = &keys[..if change { keys.len() / 6 } else { keys.len() }];
    for work in if change { &[REMOVE, INSERT][..] } else { &[LOOKUP][..] } {
        for key in some {
            steps += w.work(*work, black_box(*key));
            works += 1;
        }
    }
    (steps, works)
}

/// Nanoseconds a step and a work: the best of many rounds, each from the same table.
fn time<W: Works + Clone>(from: &W, keys: &[u64], change: bool) -> (f64, f64, Vec<u64>) {
    let mut best = f64::MAX;
    let (mut steps, mut works, mut after) = (0, 0, vec![]);
    for _ in 0..200_000 / keys.len() {
        let mut w = from.clone();
        let at = Instant::now();
        (steps, works) = round(&mut w, keys, change);
        best = best.min(at.elapsed().as_nanos() as f64);
        after = w.words().to_vec();
    }
    (best / steps as f64, best / works as f64, after)
}

/// Every pair decoded, and every field folded in, so that none can be left out: key, state, links, locks, busy, zeros.
fn scan(words: &[u64]) -> u64 {
    let mut all = 0u64;
    for slot in words.chunks_exact(SLOT_WORDS) {
        let w = slot[FIELDS];
        let (left, right) = links(w);
        let [own, left_edge, right_edge] = [STATE_LOCK_AT, LEFT_LOCK_AT, RIGHT_LOCK_AT].map(|at| w >> at & LOCK);
        let busy = w >> BUSY_AT & BUSY;
        let (left, right) = (left as u64, right as u64);
        let fields = [slot[KEY], w >> STATE_AT, left, right, own, left_edge, right_edge, busy, w & ROOT_REST];
        all = fields.iter().fold(all, |a, f| a.rotate_left(5) ^ f);
    }
    all
}

/// A call between steps, once.
fn between(call: &str, words: &mut [u64], out: &mut [u64]) -> u64 {
    let mut value = 0;
    match call {
        "list" => raw::list(words, 0, u64::MAX, out, &mut value),
        "first" => raw::first(words, 0, &mut value),
        "check" => raw::check(words),
        "sweep" => raw::sweep(words),
        _ => scan(words),
    }
}

const CALLS: [&str; 5] = ["scan", "list", "first", "check", "sweep"];

fn time_between(call: &str, words: &[u64]) -> f64 {
    let (mut words, mut out, mut best) = (words.to_vec(), vec![0; words.len()], f64::MAX);
    for _ in 0..60 {
        let at = Instant::now();
        for _ in 0..20 {
            black_box(between(call, black_box(&mut words), &mut out));
        }
        best = best.min(at.elapsed().as_nanos() as f64 / 20.0);
    }
    best
}

fn times() {
    println!(
        "time, best of many rounds            slots   library    judged     plain  BTreeSet  \
         library/judged  library/plain  library/BTreeSet"
    );
    for slots in [64, 256, 1024] {
        let (l, keys) = filled(slots);
        let p = Table { words: l.words.clone(), record: IDLE };
        let j = Table { words: l.words.clone(), record: judged::IDLE };
        let t = Tree(keys.iter().copied().collect());
        for change in [false, true] {
            let name = if change { "remove or insert" } else { "lookup" };
            let (a, b, c) = (time(&l, &keys, change), time(&p, &keys, change), time(&t, &keys, change));
            let d = time(&j, &keys, change);
            assert!(a.2 == b.2, "the plain steps left other words");
            assert!(a.2 == d.2, "the judging steps left other words");
            println!(
                "{:<36} {slots:5} {:6.1} ns {:6.1} ns {:6.1} ns {:>22.2} {:14.2}",
                format!("a step of a {name}"),
                a.0,
                d.0,
                b.0,
                a.0 / d.0,
                a.0 / b.0
            );
            println!(
                "{:<36} {slots:5} {:6.0} ns {:6.0} ns {:6.0} ns {:6.0} ns {:12.2} {:14.2} {:17.2}",
                format!("a whole {name}"),
                a.1,
                d.1,
                b.1,
                c.1,
                a.1 / d.1,
                a.1 / b.1,
                a.1 / c.1
            );
        }
        let base = time_between("scan", &l.words);
        for call in &CALLS[1..] {
            let t = time_between(call, &l.words);
            println!("{call:<36} {slots:5} {t:6.0} ns {base:6.0} ns (plain: every pair decoded) {:.1}", t / base);
        }
    }
}

/// The same work n times, for valgrind; prints how many units one time is.
fn count(who: &str, what: &str, slots: usize, n: u64) {
    let (l, keys) = filled(slots);
    let p = Table { words: l.words.clone(), record: IDLE };
    let j = Table { words: l.words.clone(), record: judged::IDLE };
    let t = Tree(keys.iter().copied().collect());
    let (change, mut words, mut out) = (what == "change", l.words.clone(), vec![0; l.words.len()]);
    let mut case = cases::table(what, slots);
    let mut one = (1, 1);
    for _ in 0..n {
        match who {
            "library" => one = round(&mut l.clone(), &keys, change),
            "plain" => one = round(&mut p.clone(), &keys, change),
            "judged" => one = round(&mut j.clone(), &keys, change),
            "btree" => one = round(&mut t.clone(), &keys, change),
            "case" => one.0 = cases::round(what, &mut case.0, &case.1),
            _ => one.0 = 1 + (black_box(between(what, &mut words, &mut out)) & 0),
        }
    }
    println!("{} {}", one.0, one.1);
}

fn main() {
    let args: Vec<String> = std::env::args().collect();
    match args.get(1).map(|a| a.as_str()) {
        Some("count") => count(&args[2], &args[3], args[4].parse().unwrap(), args[5].parse().unwrap()),
        _ => times(),
    }
}
