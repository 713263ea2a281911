//! The numbers and the calls are given once: the C header and this crate say the same.
use pannuqreik::{raw, words_for, Refusal, FEWEST_SLOTS, FEWEST_WORDS, MOST_SLOTS, MOST_WORDS, SLOT_WORDS};
use std::collections::{BTreeMap, BTreeSet};
use std::fs;

fn read(path: &str) -> String {
    let path = format!("{}/{path}", env!("CARGO_MANIFEST_DIR"));
    fs::read_to_string(&path).unwrap_or_else(|e| panic!("{path}: {e}"))
}

/// `PANNUQREIK_NAME = n` of the header: n is a number, or a product of names that stand above.
fn constants() -> BTreeMap<String, u64> {
    let mut all = BTreeMap::new();
    for line in read("../include/pannuqreik.h").lines() {
        let Some(line) = line.trim().strip_prefix("PANNUQREIK_") else { continue };
        let Some((name, rest)) = line.split_once(" = ") else { continue };
        let value = rest.split("/*").next().unwrap_or(rest).trim().trim_end_matches(',');
        let factor = |f: &str| f.strip_prefix("PANNUQREIK_").map_or_else(|| f.parse().expect("a number"), |name| all[name]);
        let value: u64 = value.split(" * ").map(factor).product();
        all.insert(name.to_string(), value);
    }
    all
}

/// The names of the calls that a text declares.
fn calls(text: &str) -> BTreeSet<String> {
    let starts = text.match_indices("pannuqreik_").map(|(i, _)| &text[i..]);
    let name = |s: &str| s.split(|c: char| !c.is_ascii_alphanumeric() && c != '_').next().unwrap().to_string();
    starts.filter(|s| s[name(s).len()..].starts_with('(')).map(name).collect()
}

#[test]
fn numbers_are_the_headers() {
    let c = constants();
    for r in Refusal::ALL {
        let name = format!("{r:?}").to_uppercase();
        assert_eq!(c.get(&name), Some(&(r as u64)), "{name}");
        assert_eq!(Refusal::from_number(r as u64), Some(r));
    }
    for (name, n) in [("DONE", raw::DONE), ("GOING", raw::DONE), ("FULL", raw::FULL), ("YES", raw::YES), ("NO", raw::NO)] {
        assert_eq!(c.get(name), Some(&n), "{name}");
        assert_eq!(Refusal::from_number(n), None, "{name} is no refusal");
    }
}

#[test]
fn sizes_are_the_headers() {
    let c = constants();
    let sizes = [
        ("RECORD_WORDS", raw::RECORD_WORDS),
        ("SLOT_WORDS", SLOT_WORDS),
        ("FEWEST_SLOTS", FEWEST_SLOTS),
        ("MOST_SLOTS", MOST_SLOTS),
        ("FEWEST_WORDS", FEWEST_WORDS),
        ("MOST_WORDS", MOST_WORDS),
    ];
    for (name, n) in sizes {
        assert_eq!(c.get(name), Some(&(n as u64)), "{name}");
    }
    assert_eq!((words_for(FEWEST_SLOTS), words_for(MOST_SLOTS)), (FEWEST_WORDS, MOST_WORDS));
}

/// Tables of the sizes that both name are taken, and those next to them are not.
#[test]
fn sizes_are_the_librarys() {
    let said = |n: usize| raw::fresh(&mut vec![0; n]);
    assert_eq!((said(FEWEST_WORDS), said(MOST_WORDS)), (raw::DONE, raw::DONE));
    for n in [0, words_for(FEWEST_SLOTS - 1), FEWEST_WORDS - 1, FEWEST_WORDS + 1, MOST_WORDS - 1, MOST_WORDS + 1] {
        assert_eq!(said(n), Refusal::Table as u64, "{n} words");
    }
    assert_eq!(said(words_for(MOST_SLOTS + 1)), Refusal::Table as u64);
}

#[test]
fn calls_are_the_headers() {
    let (header, crate_) = (calls(&read("../include/pannuqreik.h")), calls(&read("src/raw.rs")));
    assert_eq!(header, crate_);
    assert_eq!(header.len(), 16);
}

#[test]
fn every_refusal_says_why() {
    let words: BTreeSet<String> = Refusal::ALL.iter().map(|r| r.to_string()).collect();
    assert_eq!(words.len(), Refusal::ALL.len());
    for r in Refusal::ALL {
        assert!(r.to_string().starts_with(&format!("refused {}: ", r as u64)));
    }
    let sizes = format!("under {FEWEST_WORDS} or over {MOST_WORDS}");
    assert!(Refusal::Table.to_string().replace(',', "").contains(&sizes), "{sizes}");
}
