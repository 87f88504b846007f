//! Where the entries of the tables send.

use crate::model::{Fabric, Far, NO_PORT};
use crate::traffic::Owner;

/// How a route ends.
#[derive(Clone, Copy, PartialEq, Eq, Debug)]
pub enum End {
    /// At its target.
    Arrived = 1,
    /// At a switch whose table names no port.
    Missing,
    /// At a port where nothing stands.
    Dead,
    /// At another end port.
    Wrong,
    /// Never: it goes round.
    Loop,
}

/// Where an entry sends, in one word: to a switch and the port by which it is entered, or to the end of a route.
#[derive(Clone, Copy, PartialEq, Eq)]
pub struct Hop(u32);

impl Hop {
    const END: u32 = 1 << 31;
    const HOST: u32 = 1 << 30;
    const SWITCH: u32 = 1 << 29;

    /// Nowhere, since the entry names no port.
    pub const MISSING: Hop = Hop(Hop::END);
    /// To a port where nothing stands.
    pub const DEAD: Hop = Hop(Hop::END | 1);

    /// On to a switch, which is entered by a port.
    fn on(switch: u32, port: u8) -> Hop {
        Hop(switch << 8 | u32::from(port))
    }

    /// To an end port.
    pub fn to(owner: Owner) -> Hop {
        match owner {
            Owner::Host(host) => Hop(Hop::END | Hop::HOST | host),
            Owner::Switch(switch) => Hop(Hop::END | Hop::SWITCH | switch),
        }
    }

    /// Whether a route ends by it.
    #[inline]
    pub fn is_end(self) -> bool {
        self.0 & Hop::END != 0
    }

    /// The switch to which a route goes on.
    #[inline]
    pub fn switch(self) -> usize {
        (self.0 >> 8) as usize
    }

    /// The port by which that switch is entered.
    #[inline]
    pub fn port(self) -> u8 {
        self.0 as u8
    }

    /// How a route ends by it that was to end by another.
    pub fn end(self, target: Hop) -> End {
        match self {
            _ if self == target => End::Arrived,
            Hop::MISSING => End::Missing,
            Hop::DEAD => End::Dead,
            _ => End::Wrong,
        }
    }
}

/// Where each switch sends by each of its ports.
pub struct Hops<'a> {
    by_slot: Vec<Hop>,
    base: &'a [u32],
    ports: Vec<u8>,
}

impl<'a> Hops<'a> {
    pub fn new(fabric: &'a Fabric) -> Hops<'a> {
        let far = fabric.far.iter().map(|&far| match far {
            Far::None => Hop::DEAD,
            Far::Switch(switch, port) => Hop::on(switch, port),
            Far::Host(host) => Hop::to(Owner::Host(host)),
        });
        let mut by_slot: Vec<Hop> = far.collect();
        for switch in 0..fabric.switches.len() {
            by_slot[fabric.slot(switch, 0)] = Hop::to(Owner::Switch(switch as u32));
        }
        let ports = fabric.switches.iter().map(|switch| switch.ports).collect();
        Hops { by_slot, base: &fabric.base, ports }
    }

    /// The slot of port 0 of a switch.
    #[inline]
    pub fn base(&self, switch: usize) -> usize {
        self.base[switch] as usize
    }

    /// Where a switch sends by its ports, from 0 on.
    #[inline]
    pub fn of(&self, switch: usize) -> &[Hop] {
        &self.by_slot[self.base(switch)..self.base(switch + 1)]
    }

    /// Whether a switch has a port above 0 of this number.
    #[inline]
    pub fn has_port(&self, switch: usize, port: u8) -> bool {
        port != 0 && port <= self.ports[switch]
    }

    /// Whether a port of a switch leads to a switch.
    #[inline]
    pub fn goes_on(&self, switch: usize, port: u8) -> bool {
        self.of(switch).get(usize::from(port)).is_some_and(|hop| !hop.is_end())
    }

    /// Where each switch sends that has these ports in its table.
    pub fn fill(&self, ports: &[u8], hops: &mut [Hop]) {
        for (switch, (&port, hop)) in ports.iter().zip(hops).enumerate() {
            *hop = if port <= self.ports[switch] {
                self.by_slot[self.base(switch) + usize::from(port)]
            } else if port == NO_PORT {
                Hop::MISSING
            } else {
                Hop::DEAD
            };
        }
    }
}
