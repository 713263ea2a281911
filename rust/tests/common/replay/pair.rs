//! A slot's pair as words of a line: its key, and its fields by name.
use super::line::below;
use crate::common::reference::layout::{Field, BUSY, LINKS, LOCKS};
use crate::common::reference::table::{key, pair, Pair};

const STATES: [&str; 4] = ["free", "data", "routing", "deleted"];

/// The bits that should be zero are shown only where one is set.
pub fn printed(table: &[u64], i: usize) -> String {
    let Pair { state, link, lock, busy, rest } = pair(table, i as u64);
    let mut said = format!("{:016X} {}", key(table, i as u64), STATES[state as usize]);
    said += &format!(" links {} {} locks {} {} {}", link[0], link[1], lock[0], lock[1], lock[2]);
    if i == 0 {
        said += &format!(" busy {busy}");
    }
    if rest != 0 {
        said += &format!(" other {rest:016X}");
    }
    said
}

/// A number that fits into the field.
fn number(field: Field, word: &str) -> Option<u64> {
    below(field.size() as usize, word).map(|n| n as u64)
}

/// The fields that the words say, all other bits zero. The root says how many workers are busy, and no other slot does.
pub fn parsed(root: bool, words: &[&str]) -> Option<Pair> {
    let [state, "links", left, right, "locks", own, left_edge, right_edge, rest @ ..] = words else { return None };
    let busy = match (root, rest) {
        (true, ["busy", n]) => number(BUSY, n)?,
        (false, []) => 0,
        _ => return None,
    };
    Some(Pair {
        state: STATES.iter().position(|name| name == state)? as u64,
        link: [number(LINKS[0], left)?, number(LINKS[1], right)?],
        lock: [number(LOCKS[0], own)?, number(LOCKS[1], left_edge)?, number(LOCKS[2], right_edge)?],
        busy,
        rest: 0,
    })
}
