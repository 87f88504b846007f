//! Lives, ends, positions, entries and bodies. The orders are those of the fields.

use std::rc::Rc;

/// One time that a switch is on.
#[derive(Clone, Copy, PartialEq, Eq, PartialOrd, Ord, Hash)]
pub struct Life {
    pub uid: u64,
    pub boot: u32,
}

/// A life, and a port of it.
#[derive(Clone, Copy, PartialEq, Eq, PartialOrd, Ord)]
pub struct End {
    pub life: Life,
    pub port: u8,
}

/// A place in a spanning tree; the port is the holder's own to its parent, 0 at a root.
#[derive(Clone, Copy, PartialEq, Eq, PartialOrd, Ord)]
pub struct Position {
    pub root: Life,
    pub level: u8,
    pub parent: Life,
    pub port: u8,
}

impl Position {
    /// The position of a life that is its own root.
    pub fn of_root(life: Life) -> Position {
        Position { root: life, level: 0, parent: life, port: 0 }
    }
}

/// A good link of a life: its own port, and the other end.
#[derive(Clone, Copy, PartialEq, Eq, PartialOrd, Ord)]
pub struct PortLink {
    pub port: u8,
    pub peer: End,
}

/// What is known of one life.
#[derive(Clone, PartialEq, Eq, PartialOrd, Ord)]
pub struct Entry {
    pub life: Life,
    pub position: Position,
    pub proposed: u8,
    pub links: Rc<[PortLink]>,
}

/// A position that is told.
#[derive(Clone, Copy)]
pub struct Offer {
    pub version: u32,
    pub root: Life,
    pub level: u8,
    pub to_parent: bool,
}

/// Entries with their numbers.
pub struct Topology {
    pub entries: Vec<Entry>,
    pub numbers: Vec<u8>,
}

/// What goes through a session.
#[derive(Clone)]
pub enum Body {
    Position(Offer),
    Answer { version: u32, to_parent: bool },
    Report(Rc<[Entry]>),
    Topology(Rc<Topology>),
}
