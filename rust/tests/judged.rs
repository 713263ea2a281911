//! The bench's steps that are written by hand and judge all that the specification asks, against the independent
//! implementation of it: the same answer, words and record after each call. `PANNUQREIK_CALLS` sets how many calls each
//! test makes.
mod common;
#[path = "../../bench/steps_judged.rs"]
mod judged;
use common::both::{damaged_runs, honest_runs, limits, Both, Compared};
use common::{calls, reference_keys, Random};
use judged::Judged;

#[derive(Clone)]
struct ByHand;

fn read(s: &[u64]) -> Judged {
    let [work, key, phase, this, prev, side, before, up, other, toward, done] = *s else { panic!("eleven words") };
    Judged { work, key, phase, this, prev, side, before, up, other, toward, done }
}

fn write(s: &mut [u64], r: Judged) {
    s.copy_from_slice(&[r.work, r.key, r.phase, r.this, r.prev, r.side, r.before, r.up, r.other, r.toward, r.done]);
}

impl Compared for ByHand {
    const STEPS_ONLY: bool = true;

    fn start(words: &mut [u64], record: &mut [u64], work: u64, key: u64) -> u64 {
        let mut r = read(record);
        let said = r.start(words, work, key);
        write(record, r);
        said
    }

    fn step(words: &mut [u64], record: &mut [u64]) -> u64 {
        let mut r = read(record);
        let said = r.step(words);
        write(record, r);
        said
    }
}

#[test]
fn idle_is_zeros() {
    let mut words = [1; 11];
    write(&mut words, judged::IDLE);
    assert_eq!(words, [0; 11]);
}

#[test]
fn honest_calls() {
    honest_runs::<ByHand>(calls(1_000_000));
}

#[test]
fn damaged_tables_and_records() {
    let seen = damaged_runs::<ByHand>(calls(2_000_000));
    for n in [1, 2, 3, 6] {
        assert!(seen[n] > 0, "no call was refused {n}");
    }
}

/// Fields at and beyond their bounds.
fn edge_key(r: &mut Random) -> u64 {
    let years = [0, 1989, 1990, 1991, 2000, 2023, 2024, 2100, 2400, 2999, 3000, 4095];
    let hours = [0, 1, 22, 23, 24, 31];
    let sixty = [0, 1, 58, 59, 60, 63];
    let numbers = [0, 1, 9998, 9999, 10000, 16383];
    let late = [0, 1, 2, 27, 28, 29, 30, 31];
    let (month, day) = (r.below(16), *r.pick(&late));
    // most keys have one field that may be out of its range: the others are those of a legal key
    let mut fields = [2024, 1 + month % 12, 1 + day % 28, 23, 59, 59, 99, r.below(32), 9999];
    for _ in 0..1 + r.below(3) {
        match r.below(8) {
            0 => fields[0] = *r.pick(&years),
            1 => fields[1] = month,
            2 => fields[2] = day,
            3 => fields[3] = *r.pick(&hours),
            4 => fields[4] = *r.pick(&sixty),
            5 => fields[5] = *r.pick(&sixty),
            6 => fields[6] = *r.pick(&[0, 98, 99, 100, 127]),
            _ => fields[8] = *r.pick(&numbers),
        }
    }
    reference_keys::join(&fields)
}

#[test]
fn keys_at_the_edges() {
    let (mut r, most) = (Random(7), calls(1_000_000));
    let fresh = Both::<ByHand>::fresh(2, 1, &mut r);
    let (mut made, mut answers) = (0, [0u64; 18]);
    while made < most {
        let mut both = fresh.clone();
        let (key, work) = (edge_key(&mut r), 1 + r.below(3));
        let said = both.start(0, work, key);
        answers[said as usize] += 1;
        if said != 0 {
            // the same key in a record that has begun
            both.start(0, work, reference_keys::join(&[2024, 6, 15, 10, 2, 7, 0, 1, 102]));
            (both.records[0][1], both.twins[0][1]) = (key, key);
        }
        both.step(0);
        made += both.calls - fresh.calls;
    }
    assert!(answers[0] > most / 20 && answers[3] > most / 20, "legal {}, not legal {}", answers[0], answers[3]);
    println!("keys: {made} calls");
}

#[test]
fn readers_and_seats_to_the_limit() {
    limits::<ByHand>();
}
