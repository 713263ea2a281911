//! A worker's record as words of a line.
use super::line::{decimal, hexadecimal};
use crate::common::reference::record::{self, At, Record, WALK};
use Note::{Before, Child, ChildSide, Done, Previous, Side, This, Up};

/// What a phase may note.
#[derive(Clone, Copy)]
enum Note {
    This,
    Previous,
    Side,
    Before,
    Up,
    Child,
    ChildSide,
    Done,
}

const WORKS: [&str; 4] = ["idle", "lookup", "insert", "remove"];

/// The phases by name, and what each of them notes.
const PHASES: [(&str, At, &[Note]); 8] = [
    ("walk", At::Walk, &[This, Previous, Side, Before, Up]),
    ("leaf", At::Leaf, &[This, Previous, Side, Before, Up]),
    ("on-routing", At::OnRouting, &[This, Done]),
    ("two", At::Two, &[This, Done]),
    ("new", At::New, &[Previous, Side, Done]),
    ("one", At::One, &[This, Previous, Side, Child, ChildSide, Done]),
    ("under-data", At::UnderData, &[This, Previous, Side, Done]),
    ("under-routing", At::UnderRouting, &[This, Previous, Side, Before, Up, Child, Done]),
];

fn side_name(side: usize) -> String {
    ["left", "right"][side].to_string()
}

fn side(word: &str) -> Option<usize> {
    ["left", "right"].iter().position(|name| *name == word)
}

fn note_word(r: &Record, note: Note) -> String {
    match note {
        This => r.this.to_string(),
        Previous => r.prev.to_string(),
        Side => side_name(r.side),
        Before => r.before.to_string(),
        Up => side_name(r.up),
        Child => r.other.to_string(),
        ChildSide => side_name(r.toward),
        Done => r.done.to_string(),
    }
}

fn take_note(r: &mut Record, note: Note, word: &str) -> Option<()> {
    match note {
        This => r.this = decimal(word)?,
        Previous => r.prev = decimal(word)?,
        Side => r.side = side(word)?,
        Before => r.before = decimal(word)?,
        Up => r.up = side(word)?,
        Child => r.other = decimal(word)?,
        ChildSide => r.toward = side(word)?,
        Done => r.done = decimal(word)?,
    }
    Some(())
}

/// The number of a kind of work, `idle` among them.
pub fn work(word: &str) -> Option<u64> {
    WORKS.iter().position(|name| *name == word).map(|n| n as u64)
}

/// The record's words on one line.
pub fn printed(words: &[u64]) -> String {
    let r = record::read(words).expect("no command puts there what is no record");
    let (name, _, notes) = PHASES.iter().find(|(_, at, _)| *at == r.at).expect("each phase is in the list");
    let mut said = format!("{} {:016X} {name}", WORKS[r.work as usize], r.key);
    for note in *notes {
        said += " ";
        said += &note_word(&r, *note);
    }
    said
}

/// The record that the words of a line say, no word less and no word more.
pub fn parsed(words: &[&str]) -> Option<Record> {
    let [kind, key, phase, noted @ ..] = words else { return None };
    let (_, at, notes) = PHASES.iter().find(|(name, ..)| name == phase)?;
    if noted.len() != notes.len() {
        return None;
    }
    let mut r = Record { work: work(kind)?, key: hexadecimal(key)?, at: *at, ..WALK };
    for (note, word) in notes.iter().zip(noted) {
        take_note(&mut r, *note, word)?;
    }
    Some(r)
}
