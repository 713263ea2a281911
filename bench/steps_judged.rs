// The same steps on the same words, as one would write them in Rust with every judgement that the specification asks of a
// call: rule 1, the record's rules, the key's legality, the rules of each pair that is met. No proof. It shows what judging
// costs in any language, so it judges by as few tests as it can: steps_rules.rs. Only for comparison; bench/steps.rs checks
// that it leaves the same words, and rust/tests/judged.rs that it answers as the specification says, whatever it is given.

#[path = "steps_locks.rs"]
mod locks;
#[path = "steps_plan.rs"]
mod plan;
#[path = "steps_rules.rs"]
pub mod rules;

use rules::{
    judged_root, legal, legal_at_once, links, links_at_once, pair_fine, root_at_once, root_busy, rooted, Pairs, Slot, DATA,
    DELETED, FIELDS, MOST_BUSY, ROOT_EMPTY, ROOT_SEATED, ROUTING, SEAT, STATE,
};

/// What a step answers.
const GOING: u64 = 0;
const FULL: u64 = 5;
const YES: u64 = 16;
const NO: u64 = 17;

/// Numbers of refusal.
const BROKEN: u64 = 1;
const BUSY_OR_IDLE: u64 = 2;
const NOT_LEGAL: u64 = 3;
const NO_SEAT: u64 = 4;
const DAMAGED: u64 = 6;
const CROWDED: u64 = 9;

const LOOKUP: u64 = 1;
const INSERT: u64 = 2;
const REMOVE: u64 = 3;

const WALK: u64 = 0;
const ON_ROUTING: u64 = 1;
const NEW: u64 = 2;
const TWO: u64 = 3;
const ONE: u64 = 4;
const LEAF: u64 = 5;
const UNDER_DATA: u64 = 6;
const UNDER_ROUTING: u64 = 7;

/// A worker's record: the library's eleven words by name, moved on in place.
#[derive(Clone, Copy)]
pub struct Judged {
    pub work: u64,
    pub key: u64,
    pub phase: u64,
    pub this: u64,
    pub prev: u64,
    pub side: u64,
    pub before: u64,
    pub up: u64,
    pub other: u64,
    pub toward: u64,
    pub done: u64,
}

pub const IDLE: Judged =
    Judged { work: 0, key: 0, phase: WALK, this: 0, prev: 0, side: 0, before: 0, up: 0, other: 0, toward: 0, done: 0 };

impl Judged {
    /// Are the words a record: numbers that one has, and nothing that its phase does not note?
    fn is_record(&self) -> bool {
        let none = match self.phase {
            WALK | LEAF => self.other | self.toward | self.done,
            ON_ROUTING | TWO => self.prev | self.side | self.before | self.up | self.other | self.toward,
            NEW => self.this | self.before | self.up | self.other | self.toward,
            ONE => self.before | self.up,
            UNDER_DATA => self.before | self.up | self.other | self.toward,
            UNDER_ROUTING => self.toward,
            _ => return false,
        };
        none == 0 && self.work <= REMOVE && (self.side | self.up | self.toward) <= 1
    }

    /// Why a record that no step can be made of is refused.
    #[cold]
    #[inline(never)]
    fn refused(&self) -> u64 {
        if self.work == 0 && self.is_record() {
            BUSY_OR_IDLE
        } else {
            DAMAGED
        }
    }

    /// Takes a seat. Not inlined, and the step neither: the library's calls are not.
    #[inline(never)]
    pub fn start(&mut self, words: &mut [u64], work: u64, key: u64) -> u64 {
        let Some((pairs, word)) = rooted(words) else { return BROKEN };
        let noted = self.phase | self.this | self.prev | self.side | self.before | self.up | self.other | self.toward;
        if noted != 0 || self.work | self.done != 0 || !legal_at_once(key) || !root_at_once(word, ROOT_EMPTY, pairs.len()) {
            return self.start_late(pairs, work, key);
        }
        self.begin(pairs, work, key)
    }

    /// A start that can't be told at once.
    #[inline(never)]
    fn start_late(&mut self, pairs: &mut Pairs, work: u64, key: u64) -> u64 {
        let Some(busy) = root_busy(pairs[0][FIELDS], pairs.len()) else { return BROKEN };
        if !self.is_record() {
            return DAMAGED;
        }
        if self.work != 0 {
            return BUSY_OR_IDLE;
        }
        if !legal(key) {
            return NOT_LEGAL;
        }
        if busy == MOST_BUSY {
            return NO_SEAT;
        }
        self.begin(pairs, work, key)
    }

    #[inline(always)]
    fn begin(&mut self, pairs: &mut Pairs, work: u64, key: u64) -> u64 {
        pairs[0][FIELDS] += SEAT;
        *self = Judged { work, key, ..IDLE };
        GOING
    }

    /// The end of a work: the seat is given up, and the record is idle.
    #[inline(always)]
    fn over(&mut self, root: &mut Slot, answer: u64) -> u64 {
        root[FIELDS] -= SEAT;
        *self = IDLE;
        answer
    }

    #[inline(always)]
    fn restart(&mut self) -> u64 {
        *self = Judged { work: self.work, key: self.key, ..IDLE };
        GOING
    }

    /// Does a walk, or a leaf's remover, name slots of the table, and none in two roles?
    #[inline(always)]
    fn walk_roles(&self, slots: usize) -> bool {
        let Judged { this, prev, before, .. } = *self;
        if (this as usize) >= slots || (prev as usize) >= slots || (before as usize) >= slots {
            return false;
        }
        // at the root and under it, the slots that there are not are the root
        if this == 0 || prev == 0 {
            return prev | before == 0;
        }
        this != prev && this != before && before != prev
    }

    /// Are these words of a walk such as a busy one has?
    #[inline(always)]
    fn walks(&self) -> bool {
        (self.side | self.up) <= 1 && self.work.wrapping_sub(1) < REMOVE
    }

    /// One step. A walk under a root without locks, with a day up to 28, is judged here, each rule by a test or two.
    #[inline(never)]
    pub fn step(&mut self, words: &mut [u64]) -> u64 {
        if self.phase | self.other | self.toward | self.done != 0 {
            return self.act(words);
        }
        let Some((pairs, word)) = rooted(words) else { return BROKEN };
        if !root_at_once(word, ROOT_SEATED, pairs.len()) || !legal_at_once(self.key) {
            return self.walk_late(pairs, word);
        }
        self.walk(pairs, word)
    }

    /// A step of a walk whose root or key can't be told at once.
    #[inline(never)]
    fn walk_late(&mut self, pairs: &mut Pairs, word: u64) -> u64 {
        let Some(busy) = judged_root(pairs, word) else { return BROKEN };
        if !busy || !legal(self.key) {
            return self.refused();
        }
        self.walk(pairs, word)
    }

    /// A step of a walk, after root and key have been judged.
    #[inline(always)]
    fn walk(&mut self, pairs: &mut Pairs, root: u64) -> u64 {
        if self.this == 0 {
            return self.leave_root(pairs, root);
        }
        let slots = pairs.len();
        if !self.walks() || !self.walk_roles(slots) {
            return self.refused();
        }
        let Some(&[found, word, ..]) = pairs.get(self.this as usize) else { return DAMAGED };
        let Some((left, right)) = links_at_once(word) else { return self.visit_late(pairs) };
        // both ways out say damaged; they are two, so that the compiler makes two branches of the tests, which is shorter
        if left >= slots {
            return self.refused();
        }
        if right >= slots {
            return self.visit_late(pairs);
        }
        self.visit(pairs, found, (left, right))
    }

    /// A walk's first step: a legal key is left of the root, whose word keeps rule 1.
    #[inline(always)]
    fn leave_root(&mut self, pairs: &mut Pairs, word: u64) -> u64 {
        if self.prev | self.before != 0 || !self.walks() {
            return self.refused();
        }
        let (left, _) = links(word);
        let Some(root) = pairs.first_mut() else { return DAMAGED };
        if left == 0 {
            return self.at_nothing(root, 0);
        }
        (self.this, self.side, self.up) = (left as u64, 0, self.side);
        GOING
    }

    /// Goes on from a slot whose pair can't be told at once.
    #[inline(never)]
    fn visit_late(&mut self, pairs: &mut Pairs) -> u64 {
        let [found, word, ..] = pairs[self.this as usize];
        if !pair_fine(word, pairs.len()) {
            return DAMAGED;
        }
        self.visit(pairs, found, links(word))
    }

    /// Goes on from a slot that is fine.
    #[inline(always)]
    fn visit(&mut self, pairs: &mut Pairs, found: u64, (left, right): (usize, usize)) -> u64 {
        if found == self.key {
            return self.found(pairs);
        }
        let Some(root) = pairs.first_mut() else { return DAMAGED };
        let right_of = found < self.key;
        let next = if right_of { right } else { left };
        if next == 0 {
            return self.at_nothing(root, right_of as u64);
        }
        (self.before, self.up) = (self.prev, self.side);
        (self.prev, self.side) = (self.this, right_of as u64);
        self.this = next as u64;
        GOING
    }

    /// The walk ends below this slot, on a side.
    #[inline(never)]
    fn at_nothing(&mut self, root: &mut Slot, side: u64) -> u64 {
        if self.work != INSERT {
            return self.over(root, NO);
        }
        *self = Judged { work: INSERT, key: self.key, phase: NEW, prev: self.this, side, ..IDLE };
        GOING
    }

    /// The walk ends on this slot.
    #[inline(never)]
    fn found(&mut self, pairs: &mut Pairs) -> u64 {
        let Judged { work, key, this, prev, side, .. } = *self;
        let Some(&[_, word, ..]) = pairs.get(this as usize) else { return DAMAGED };
        match (work, word & STATE) {
            (LOOKUP, DATA) => return self.over(&mut pairs[0], YES),
            (INSERT, DELETED) => return self.restart(),
            (INSERT, ROUTING) => *self = Judged { work, key, phase: ON_ROUTING, this, ..IDLE },
            (REMOVE, DATA) => match links(word) {
                (0, 0) => self.phase = LEAF,
                (0, right) => *self = Judged { work, key, phase: ONE, this, prev, side, other: right as u64, toward: 1, ..IDLE },
                (left, 0) => *self = Judged { work, key, phase: ONE, this, prev, side, other: left as u64, ..IDLE },
                _ => *self = Judged { work, key, phase: TWO, this, ..IDLE },
            },
            _ => return self.over(&mut pairs[0], NO),
        }
        GOING
    }
}
