// Steps and starts of the library that are not the usual ones: what a rare case costs beside the usual one. A case takes the
// judgements that one test makes of nearly all steps and fails them: a key of the last days of a month, a lock held on the
// root, on both, on every slot that is passed; a start, and one with a key that is not legal.
use super::judged::rules::{FIELDS, SLOT_WORDS, STATE_LOCK};
use super::raw;
use super::{keys, Library, Works, INSERT, LOOKUP};

/// A reader of a slot's state.
const READER: u64 = 2 * STATE_LOCK;

/// A table three quarters full of such keys, in a random order, as the case has it.
pub fn table(case: &str, slots: usize) -> (Library, Vec<u64>) {
    let keys = keys(slots * 3 / 4, if case.starts_with("late-day") { 30 } else { 15 });
    let mut l = Library { words: vec![0; raw::words_for(slots)], record: [0; raw::RECORD_WORDS] };
    assert_eq!(raw::fresh(&mut l.words), 0);
    for key in &keys {
        l.work(INSERT, *key);
    }
    if case.ends_with("locked-root") {
        l.words[FIELDS] += READER;
    }
    if case == "locked-slots" {
        for slot in l.words.chunks_exact_mut(SLOT_WORDS).skip(1).filter(|s| s[FIELDS] != 0) {
            slot[FIELDS] += READER;
        }
    }
    (l, keys)
}

/// The case once for each key; how many steps or starts that was.
pub fn round(case: &str, l: &mut Library, keys: &[u64]) -> u64 {
    let mut units = 0;
    for key in keys {
        units += match case {
            "start-withdraw" => {
                raw::start_lookup(&mut l.words, &mut l.record, *key);
                raw::withdraw(&mut l.words, &mut l.record);
                1
            }
            // no file number is so large
            "start-refused" => {
                assert_eq!(raw::start_lookup(&mut l.words, &mut l.record, *key | 0x3FFF), 3);
                1
            }
            _ => l.work(LOOKUP, *key),
        };
    }
    units
}
