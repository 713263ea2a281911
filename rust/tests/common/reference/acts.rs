//! What each case does, one act a step.
use super::record::{At, Record};
use super::table::Pair;
use super::{DATA, DELETED, ROUTING};

#[derive(Clone, Copy)]
pub enum Expects {
    Routing,
    NotDeleted,
    Data,
    DataTwoChildren,
    DataNoChild,
    /// data, and the link on this side 0
    DataAlone(usize),
    /// this child on the side (0: none), and the slot not deleted
    Edge(usize, u64),
}

#[derive(Clone, Copy)]
pub struct Lock {
    pub slot: u64,
    pub field: usize,
    pub write: bool,
    pub expects: Expects,
}

#[derive(Clone, Copy)]
pub enum Act {
    Lock(Lock),
    State(u64, u64),
    Link(u64, usize, u64),
    NewSlot,
    End,
}

pub fn edge(slot: u64, side: usize, child: u64, write: bool) -> Act {
    Act::Lock(Lock { slot, field: 1 + side, write, expects: Expects::Edge(side, child) })
}

pub fn state(slot: u64, expects: Expects, write: bool) -> Act {
    Act::Lock(Lock { slot, field: 0, write, expects })
}

/// The paragraph "Locks", a line a case.
pub fn acts(r: &Record) -> Vec<Act> {
    let Record { this, prev, side, before, up, other, toward, .. } = *r;
    match r.at {
        At::Walk | At::Leaf => vec![],
        At::OnRouting => vec![state(this, Expects::Routing, true), Act::State(this, DATA), Act::End],
        At::New => vec![edge(prev, side, 0, true), state(prev, Expects::NotDeleted, false), Act::NewSlot, Act::End],
        At::Two => vec![state(this, Expects::DataTwoChildren, true), Act::State(this, ROUTING), Act::End],
        At::One => vec![
            edge(this, toward, other, false),
            edge(prev, side, this, true),
            state(this, Expects::DataAlone(1 - toward), true),
            Act::State(this, DELETED),
            Act::Link(prev, side, other),
            Act::End,
        ],
        At::UnderData => vec![
            edge(prev, side, this, true),
            state(this, Expects::DataNoChild, true),
            state(prev, Expects::Data, false),
            Act::State(this, DELETED),
            Act::Link(prev, side, 0),
            Act::End,
        ],
        At::UnderRouting => vec![
            edge(prev, side, this, true),
            state(this, Expects::DataNoChild, true),
            edge(prev, 1 - side, other, false),
            edge(before, up, prev, true),
            state(prev, Expects::Routing, true),
            Act::State(this, DELETED),
            Act::State(prev, DELETED),
            Act::Link(before, up, other),
            Act::End,
        ],
    }
}

pub fn holds(p: &Pair, e: Expects) -> bool {
    match e {
        Expects::Routing => p.state == ROUTING,
        Expects::NotDeleted => p.state != DELETED,
        Expects::Data => p.state == DATA,
        Expects::DataTwoChildren => p.state == DATA && !p.link.contains(&0),
        Expects::DataNoChild => p.state == DATA && p.link == [0, 0],
        Expects::DataAlone(side) => p.state == DATA && p.link[side] == 0,
        Expects::Edge(side, child) => p.state != DELETED && p.link[side] == child,
    }
}
