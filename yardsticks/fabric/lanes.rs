//! Service levels and lanes: which lane a packet of a service level takes from a port in to a port out.

use crate::model::Fabric;
use crate::torus::{axis, Torus, AXES};
use crate::traffic::Owner;

/// How many service levels there are.
pub const LEVELS: usize = 16;
/// The lane of what is discarded.
pub const DISCARD: u8 = 15;
/// The level of a pair without one.
pub const NO_LEVEL: u8 = 255;

/// The lanes of a fabric. Service levels of one class take the same lanes everywhere.
pub struct Lanes {
    /// How many lanes there are.
    pub count: usize,
    /// How many classes of service levels there are.
    pub classes: usize,
    /// Of each switch the lanes by port in, port out and class, from 0 on.
    pub tables: Vec<Vec<u8>>,
    pub start: Start,
}

/// With which classes the end ports send.
pub enum Start {
    /// All with these, of which each has a bit.
    Mask(u16),
    /// By the axes of a torus whose ends the route crosses.
    Torus(Torus),
    /// By the host that sends and the LID.
    Pairs(Vec<Vec<u8>>),
}

impl Start {
    /// All with all classes.
    pub fn all(classes: usize) -> Start {
        Start::Mask(((1u32 << classes) - 1) as u16)
    }
}

impl Lanes {
    /// The two lanes of a torus. A class is a set of axes, along which its packets take lane 1. End ports send with
    /// all classes, or with that of the axes whose ends the route crosses.
    pub fn of_torus(fabric: &Fabric, torus: Torus, with_all: bool) -> Lanes {
        let classes = 1 << AXES;
        let lane = |exit, class: usize| axis(exit).map_or(0, |axis| (class >> axis & 1) as u8);
        let start = if with_all { Start::all(classes) } else { Start::Torus(torus) };
        Lanes { count: 2, classes, tables: tables(fabric, classes, lane), start }
    }

    /// As many lanes as classes, each of which has its own.
    pub fn by_class(fabric: &Fabric, classes: usize) -> Lanes {
        let tables = tables(fabric, classes, |_, class| class as u8);
        Lanes { count: classes, classes, tables, start: Start::all(classes) }
    }

    /// The lanes of a switch.
    #[inline]
    pub fn of(&self, fabric: &Fabric, switch: usize) -> SwitchLanes<'_> {
        let side = usize::from(fabric.switches[switch].ports) + 1;
        SwitchLanes { table: &self.tables[switch], side, classes: self.classes }
    }

    /// The classes with which all end ports at a switch send to an owner; none if they differ by pairs.
    pub fn starting(&self, fabric: &Fabric, switch: usize, owner: Owner) -> u16 {
        match &self.start {
            Start::Mask(mask) => *mask,
            Start::Pairs(_) => 0,
            Start::Torus(torus) => {
                let target = match owner {
                    Owner::Host(host) => fabric.hosts[host as usize].switch,
                    Owner::Switch(target) => target as usize,
                };
                1 << torus.crossed(switch, target)
            }
        }
    }
}

/// The lanes of a switch.
#[derive(Clone, Copy)]
pub struct SwitchLanes<'a> {
    table: &'a [u8],
    /// One more than its greatest port.
    side: usize,
    classes: usize,
}

impl<'a> SwitchLanes<'a> {
    /// The lanes of all ports out and classes for a port in.
    pub fn of_port(self, entry: u8) -> &'a [u8] {
        let length = self.side * self.classes;
        &self.table[usize::from(entry) * length..][..length]
    }

    /// The lanes of all classes from a port in to a port out.
    #[inline]
    pub fn classes(self, entry: u8, exit: u8) -> &'a [u8] {
        &self.table[self.place(entry, exit)..][..self.classes]
    }

    /// The lane of a class from a port in to a port out.
    #[inline]
    pub fn lane(self, entry: u8, exit: u8, class: usize) -> u8 {
        self.table[self.place(entry, exit) + class]
    }

    #[inline]
    fn place(self, entry: u8, exit: u8) -> usize {
        (usize::from(entry) * self.side + usize::from(exit)) * self.classes
    }
}

/// The tables of lanes that a port out and a class have.
fn tables(fabric: &Fabric, classes: usize, lane: impl Fn(usize, usize) -> u8) -> Vec<Vec<u8>> {
    let table = |ports: u8| {
        let side = usize::from(ports) + 1;
        let row = (0..side * classes).map(|place| lane(place / classes, place % classes));
        row.collect::<Vec<u8>>().repeat(side)
    };
    fabric.switches.iter().map(|switch| table(switch.ports)).collect()
}
