// The steps of steps_judged.rs that are no walk: each by the phase and the number done, on the words.

use super::locks::{fine, leads, since, Held, ALL, IS_DATA, IS_LEAF, IS_ROUTING, NO_MORE};
use super::rules::{
    edge_lock, judged_root, legal, link, link_field, link_to, rooted, Pairs, DATA, DELETED, FIELDS, KEY, ROUTING, SLOT_WORDS,
    STATE, STATE_LOCK,
};
use super::{
    Judged, BROKEN, DAMAGED, FULL, GOING, INSERT, LEAF, NEW, ONE, ON_ROUTING, REMOVE, TWO, UNDER_DATA, UNDER_ROUTING, YES,
};

/// The lowest free slot: the root is data, by rule 1. It looks at eight slots a turn.
fn lowest_free(pairs: &Pairs) -> Option<usize> {
    const TURN: usize = 8;
    let (turns, rest) = pairs.as_chunks::<TURN>();
    for (i, turn) in turns.iter().enumerate() {
        for (j, pair) in turn.iter().enumerate() {
            if pair[FIELDS] < DATA {
                return Some(TURN * i + j);
            }
        }
    }
    let j = rest.iter().position(|pair| pair[FIELDS] < DATA)?;
    Some(TURN * turns.len() + j)
}

impl Judged {
    /// A step of a record that is no walk.
    #[inline(never)]
    pub(super) fn act(&mut self, words: &mut [u64]) -> u64 {
        let Some((pairs, word)) = rooted(words) else { return BROKEN };
        let Some(busy) = judged_root(pairs, word) else { return BROKEN };
        if !busy || !legal(self.key) {
            return self.refused();
        }
        match self.phase {
            ON_ROUTING => self.restate(pairs, INSERT),
            TWO => self.restate(pairs, REMOVE),
            NEW => self.grow(pairs),
            ONE => self.bridge(pairs),
            LEAF => self.look(pairs),
            UNDER_DATA => self.prune(pairs),
            UNDER_ROUTING => self.prune_two(pairs),
            _ => DAMAGED,
        }
    }

    /// Insert on routing, and remove with two children: only this slot's state changes.
    #[inline(never)]
    fn restate(&mut self, pairs: &mut Pairs, work: u64) -> u64 {
        let this = self.this;
        let none = self.prev | self.side | self.before | self.up | self.other | self.toward;
        if none != 0 || self.work != work || this == 0 || this as usize >= pairs.len() {
            return self.refused();
        }
        let (from, to) = if work == INSERT { (IS_ROUTING, IS_DATA) } else { (IS_DATA, IS_ROUTING) };
        match self.done {
            0 => {
                let word = pairs[this as usize][FIELDS];
                let two = link(word, 0) != 0 && link(word, 1) != 0;
                if work == INSERT || two || !fine(pairs, this) {
                    self.write(pairs, this, STATE_LOCK, from).unwrap_or_else(|| self.restart())
                } else {
                    self.restart()
                }
            }
            1 => self.store(pairs, this, to),
            2 => self.end(pairs, [(this, STATE_LOCK, 0)], YES),
            _ => DAMAGED,
        }
    }

    /// Insert at nothing.
    #[inline(never)]
    fn grow(&mut self, pairs: &mut Pairs) -> u64 {
        let Judged { prev, side, done, .. } = *self;
        let none = self.this | self.before | self.up | self.other | self.toward;
        if none != 0 || self.work != INSERT || side > 1 || prev as usize >= pairs.len() {
            return self.refused();
        }
        let edge = edge_lock(side);
        let held = |done| [(prev, since(1, done, edge), since(2, done, STATE_LOCK))];
        let said = match done {
            0 => self.write(pairs, prev, edge, leads(side, 0)),
            1 => self.read(pairs, prev, STATE_LOCK, NO_MORE),
            2 => return self.new_slot(pairs, held(ALL)),
            3 => return self.end(pairs, held(ALL), YES),
            _ => return DAMAGED,
        };
        said.unwrap_or_else(|| self.lose(pairs, held(done)))
    }

    #[inline(always)]
    fn new_slot(&mut self, pairs: &mut Pairs, held: [Held; 1]) -> u64 {
        let Judged { prev, side, .. } = *self;
        if !fine(pairs, prev) {
            return DAMAGED;
        }
        let Some(free) = lowest_free(pairs) else { return self.end(pairs, held, FULL) };
        if pairs[free] != [0; SLOT_WORDS] {
            return DAMAGED;
        }
        (pairs[free][KEY], pairs[free][FIELDS]) = (self.key, DATA);
        let word = &mut pairs[prev as usize][FIELDS];
        *word = *word & !link_field(side) | link_to(side, free as u64);
        self.went()
    }

    /// Remove with one child: previous gets the child.
    #[inline(never)]
    fn bridge(&mut self, pairs: &mut Pairs) -> u64 {
        let Judged { this, prev, side, other, toward, done, .. } = *self;
        let slots = pairs.len();
        let within = (this as usize) < slots && (prev as usize) < slots && (other as usize) < slots;
        let roles = this != 0 && other != 0 && this != prev && this != other && prev != other;
        if self.before | self.up != 0 || side | toward > 1 || self.work != REMOVE || !within || !roles {
            return self.refused();
        }
        let (edge, below) = (edge_lock(side), edge_lock(toward));
        let held = |done| [(this, since(3, done, STATE_LOCK), since(1, done, below)), (prev, since(2, done, edge), 0)];
        let said = match done {
            0 => self.read(pairs, this, below, leads(toward, other)),
            1 => self.write(pairs, prev, edge, leads(side, this)),
            2 => self.write(pairs, this, STATE_LOCK, (STATE | link_field(1 - toward), DATA)),
            3 => return self.store(pairs, this, (STATE, DELETED)),
            4 => return self.store(pairs, prev, leads(side, other)),
            5 => return self.end(pairs, held(ALL), YES),
            _ => return DAMAGED,
        };
        said.unwrap_or_else(|| self.lose(pairs, held(done)))
    }

    /// Remove of a leaf: previous is only read.
    #[inline(never)]
    fn look(&mut self, pairs: &mut Pairs) -> u64 {
        let none = self.other | self.toward | self.done;
        let fits = self.work == REMOVE && self.side | self.up <= 1;
        if none != 0 || !fits || self.this == 0 || !self.walk_roles(pairs.len()) {
            return self.refused();
        }
        if !fine(pairs, self.prev) {
            return DAMAGED;
        }
        let word = pairs[self.prev as usize][FIELDS];
        let other = link(word, 1 - self.side);
        match word & STATE {
            DATA => (self.phase, self.before, self.up) = (UNDER_DATA, 0, 0),
            ROUTING if other != 0 => (self.phase, self.other) = (UNDER_ROUTING, other),
            _ => return self.restart(),
        }
        GOING
    }

    /// Remove of a leaf under a data slot: previous loses it.
    #[inline(never)]
    fn prune(&mut self, pairs: &mut Pairs) -> u64 {
        let Judged { this, prev, side, done, .. } = *self;
        let none = self.before | self.up | self.other | self.toward;
        let within = (this as usize) < pairs.len() && (prev as usize) < pairs.len();
        if none != 0 || side > 1 || self.work != REMOVE || !within || this == 0 || this == prev {
            return self.refused();
        }
        let edge = edge_lock(side);
        let held = |done| [(prev, since(1, done, edge), since(3, done, STATE_LOCK)), (this, since(2, done, STATE_LOCK), 0)];
        let said = match done {
            0 => self.write(pairs, prev, edge, leads(side, this)),
            1 => self.write(pairs, this, STATE_LOCK, IS_LEAF),
            2 => self.read(pairs, prev, STATE_LOCK, IS_DATA),
            3 => return self.store(pairs, this, (STATE, DELETED)),
            4 => return self.store(pairs, prev, leads(side, 0)),
            5 => return self.end(pairs, held(ALL), YES),
            _ => return DAMAGED,
        };
        said.unwrap_or_else(|| self.lose(pairs, held(done)))
    }

    /// Do a leaf, its routing slot, the one before and the other child stand in the table, each in one role?
    #[inline(always)]
    fn four_roles(&self, slots: usize) -> bool {
        let Judged { this, prev, before, other, .. } = *self;
        let within = [this, prev, before, other].iter().all(|slot| (*slot as usize) < slots);
        let apart = this != prev && this != before && this != other && prev != before && prev != other && before != other;
        within && this != 0 && prev != 0 && other != 0 && apart
    }

    /// Remove of a leaf under a routing slot: both go, and the one before gets the other child.
    #[inline(never)]
    fn prune_two(&mut self, pairs: &mut Pairs) -> u64 {
        let Judged { this, prev, side, before, up, other, done, .. } = *self;
        if self.toward != 0 || side | up > 1 || self.work != REMOVE || !self.four_roles(pairs.len()) {
            return self.refused();
        }
        let (edge, back, above) = (edge_lock(side), edge_lock(1 - side), edge_lock(up));
        let held = |done| {
            let writes = since(1, done, edge) + since(5, done, STATE_LOCK);
            [(prev, writes, since(3, done, back)), (this, since(2, done, STATE_LOCK), 0), (before, since(4, done, above), 0)]
        };
        let said = match done {
            0 => self.write(pairs, prev, edge, leads(side, this)),
            1 => self.write(pairs, this, STATE_LOCK, IS_LEAF),
            2 => self.read(pairs, prev, back, leads(1 - side, other)),
            3 => self.write(pairs, before, above, leads(up, prev)),
            4 => self.write(pairs, prev, STATE_LOCK, IS_ROUTING),
            5 => return self.store(pairs, this, (STATE, DELETED)),
            6 => return self.store(pairs, prev, (STATE, DELETED)),
            7 => return self.store(pairs, before, leads(up, other)),
            8 => return self.end(pairs, held(ALL), YES),
            _ => return DAMAGED,
        };
        said.unwrap_or_else(|| self.lose(pairs, held(done)))
    }
}
