//! The commands, carried out: a table in a buffer, and the records.
use super::line::{below, hexadecimal, up_to};
use super::{pair, record};
use crate::common::reference::layout::{key_place, slot_places, slots_in};
use crate::common::reference::record::write;
use crate::common::reference::table::put;
use crate::common::reference::{self, FULL, GOING, NO, YES};

const BUFFER: usize = 2_200;
const RECORDS: usize = 32;
const MOST_KEYS: usize = 1_100;

/// The words of a record.
const WORDS: usize = 11;

pub struct Desk {
    buffer: [u64; BUFFER],
    size: usize,
    records: [[u64; WORDS]; RECORDS],
}

fn done() -> String {
    "done".to_string()
}

fn refused(n: u64) -> String {
    format!("refused {n}")
}

/// The answer of a call that does what it is asked for, or refuses.
fn reply(n: u64) -> String {
    match n {
        reference::DONE => done(),
        n => refused(n),
    }
}

fn step_answer(n: u64) -> String {
    match n {
        GOING => "going".to_string(),
        YES => "yes".to_string(),
        NO => "no".to_string(),
        FULL => "full".to_string(),
        n => refused(n),
    }
}

impl Desk {
    /// No table yet, and idle records.
    pub fn new() -> Desk {
        Desk { buffer: [0; BUFFER], size: 0, records: [[0; WORDS]; RECORDS] }
    }

    /// What a command prints; none where the words are no command, and then nothing is changed.
    pub fn carry_out(&mut self, words: &[&str]) -> Option<String> {
        match words {
            ["table", w] => self.lend(up_to(BUFFER, w)?),
            ["fresh"] => Some(reply(reference::fresh(self.table()))),
            ["poke", i, h] => self.poke(below(self.size, i)?, hexadecimal(h)?),
            ["slot", i] => self.slot(self.place(i)?),
            ["key", i, h] => self.poke(key_place(self.place(i)?), hexadecimal(h)?),
            ["put", i, fields @ ..] => self.put(self.place(i)?, fields),
            ["pair", i] => self.pair(self.place(i)?),
            ["check"] => Some(self.check()),
            ["list", low, high, room] => self.list(hexadecimal(low)?, hexadecimal(high)?, up_to(MOST_KEYS, room)?),
            ["first", from] => self.first(hexadecimal(from)?),
            ["sweep"] => Some(reply(reference::sweep(self.table()))),
            [command, r, rest @ ..] => self.on_record(command, below(RECORDS, r)?, rest),
            _ => None,
        }
    }

    fn on_record(&mut self, command: &str, r: usize, rest: &[&str]) -> Option<String> {
        let (table, record) = (&mut self.buffer[..self.size], &mut self.records[r]);
        match (command, rest) {
            ("start", [kind, key]) => {
                let (work, key) = (record::work(kind).filter(|w| *w != 0)?, hexadecimal(key)?);
                Some(reply(reference::start(table, record, work, key)))
            }
            ("step", []) => Some(step_answer(reference::step(table, record))),
            ("withdraw", []) => Some(reply(reference::withdraw(table, record))),
            ("run", []) => Some(self.run(r)),
            ("idle", []) => {
                record.fill(0);
                Some(done())
            }
            ("record", []) => Some(record::printed(record)),
            ("set", words) => {
                write(record, record::parsed(words)?);
                Some(done())
            }
            _ => None,
        }
    }

    fn table(&mut self) -> &mut [u64] {
        &mut self.buffer[..self.size]
    }

    /// A slot of the table.
    fn place(&self, word: &str) -> Option<usize> {
        below(slots_in(self.size), word)
    }

    fn lend(&mut self, size: usize) -> Option<String> {
        self.size = size;
        Some(done())
    }

    fn poke(&mut self, i: usize, word: u64) -> Option<String> {
        self.table()[i] = word;
        Some(done())
    }

    fn slot(&mut self, i: usize) -> Option<String> {
        let words: Vec<_> = self.table()[slot_places(i)].iter().map(|w| format!("{w:016X}")).collect();
        Some(words.join(" "))
    }

    fn pair(&mut self, i: usize) -> Option<String> {
        Some(pair::printed(self.table(), i))
    }

    fn put(&mut self, i: usize, fields: &[&str]) -> Option<String> {
        let fields = pair::parsed(i == 0, fields)?;
        put(self.table(), i as u64, fields);
        Some(done())
    }

    fn check(&mut self) -> String {
        match reference::check(self.table()) {
            YES => "sound".to_string(),
            NO => "unsound".to_string(),
            n => refused(n),
        }
    }

    fn list(&mut self, low: u64, high: u64, room: usize) -> Option<String> {
        let (mut keys, mut count) = (vec![0; room], 0);
        let n = reference::list(self.table(), low, high, &mut keys, &mut count);
        if n != reference::DONE {
            return Some(refused(n));
        }
        let keys = keys[..count as usize].iter().map(|k| format!(" {k:016X}"));
        Some(count.to_string() + &keys.collect::<String>())
    }

    fn first(&mut self, from: u64) -> Option<String> {
        let mut key = 0;
        match reference::first(self.table(), from, &mut key) {
            reference::DONE => Some(format!("{key:016X}")),
            n => Some(refused(n)),
        }
    }

    /// Steps until the answer is not going, at most slots plus 10.
    fn run(&mut self, r: usize) -> String {
        let (table, record) = (&mut self.buffer[..self.size], &mut self.records[r]);
        let most = slots_in(table.len()) + 10;
        let (mut said, mut calls) = (GOING, 0);
        while said == GOING && calls < most {
            said = reference::step(table, record);
            calls += 1;
        }
        format!("{} {calls}", step_answer(said))
    }
}
