//! The fabric: switches with ports, end ports, and the linear forwarding tables.

use std::collections::HashMap;
use std::ops::Range;

/// What a table has for a LID for which it names no port.
pub const NO_PORT: u8 = 255;

/// What stands at the far side of a switch's port.
#[derive(Clone, Copy, PartialEq, Eq, Debug)]
pub enum Far {
    None,
    /// A switch, and the port by which it is entered.
    Switch(u32, u8),
    Host(u32),
}

/// A switch; a LID of 0 is none.
pub struct Switch {
    pub guid: u64,
    /// The greatest number of a port.
    pub ports: u8,
    pub lid: u16,
    pub lmc: u8,
    pub name: String,
}

impl Switch {
    /// The LIDs of its port 0.
    pub fn lids(&self) -> Range<usize> {
        lids(self.lid, self.lmc)
    }
}

/// An end port of a channel adapter or router.
pub struct Host {
    pub guid: u64,
    pub lid: u16,
    pub lmc: u8,
    /// The switch to which it is attached.
    pub switch: usize,
    /// The port of that switch.
    pub port: u8,
}

impl Host {
    /// Its LIDs.
    pub fn lids(&self) -> Range<usize> {
        lids(self.lid, self.lmc)
    }
}

/// The LIDs from a base LID on, of which there are two to the power of the LMC.
fn lids(base: u16, lmc: u8) -> Range<usize> {
    let base = usize::from(base);
    base..base + (1 << lmc)
}

/// A fabric. A slot is the place of a port among those of all switches, which have ports from 0 on.
pub struct Fabric {
    pub switches: Vec<Switch>,
    pub hosts: Vec<Host>,
    /// The slot of port 0 of each switch, and at the end how many slots there are.
    pub base: Vec<u32>,
    /// What stands at the far side of each slot.
    pub far: Vec<Far>,
    /// One more than the greatest LID.
    pub lids: usize,
    /// The tables of the switches, each with an entry for each LID.
    pub lft: Vec<u8>,
}

impl Fabric {
    /// A fabric of switches that are not joined.
    pub fn new(switches: Vec<Switch>) -> Fabric {
        let mut base = Vec::with_capacity(switches.len() + 1);
        let mut slots = 0;
        for switch in &switches {
            base.push(slots);
            slots += u32::from(switch.ports) + 1;
        }
        base.push(slots);
        let far = vec![Far::None; slots as usize];
        Fabric { switches, hosts: Vec::new(), base, far, lids: 1, lft: Vec::new() }
    }

    /// Links two ports at which nothing stands.
    pub fn link(&mut self, switch: usize, port: u8, other: usize, other_port: u8) {
        let (near, far) = (self.slot(switch, port), self.slot(other, other_port));
        assert!(port > 0 && other_port > 0 && self.far[near] == Far::None && self.far[far] == Far::None);
        self.far[near] = Far::Switch(other as u32, other_port);
        self.far[far] = Far::Switch(switch as u32, port);
    }

    /// Attaches a host to a port at which nothing stands.
    pub fn attach(&mut self, host: Host) {
        let slot = self.slot(host.switch, host.port);
        assert!(self.far[slot] == Far::None);
        self.far[slot] = Far::Host(self.hosts.len() as u32);
        self.hosts.push(host);
    }

    /// Makes tables without a port for any LID.
    pub fn make_tables(&mut self) {
        let of_switches = self.switches.iter().map(Switch::lids);
        let ends = of_switches.chain(self.hosts.iter().map(Host::lids)).map(|lids| lids.end);
        self.lids = ends.max().unwrap_or(1);
        self.lft = vec![NO_PORT; self.switches.len() * self.lids];
    }

    /// The slot of a port.
    #[inline]
    pub fn slot(&self, switch: usize, port: u8) -> usize {
        self.base[switch] as usize + usize::from(port)
    }

    /// The switch of a slot.
    pub fn switch_of(&self, slot: usize) -> usize {
        self.base.partition_point(|&base| base as usize <= slot) - 1
    }

    /// What stands at the far side of a port, which may be greater than those of the switch.
    pub fn far(&self, switch: usize, port: u8) -> Far {
        if port > self.switches[switch].ports {
            return Far::None;
        }
        self.far[self.slot(switch, port)]
    }

    /// The links from a switch to switches: its port, the other switch and the port there.
    pub fn links(&self, switch: usize) -> impl Iterator<Item = (u8, usize, u8)> + '_ {
        (1..=self.switches[switch].ports).filter_map(move |port| match self.far(switch, port) {
            Far::Switch(other, other_port) => Some((port, other as usize, other_port)),
            _ => None,
        })
    }

    /// The hosts at each switch.
    pub fn hosts_by_switch(&self) -> Vec<Vec<usize>> {
        let mut hosts = vec![Vec::new(); self.switches.len()];
        for (place, host) in self.hosts.iter().enumerate() {
            hosts[host.switch].push(place);
        }
        hosts
    }

    /// The places of the switches by their GUIDs.
    pub fn places(&self) -> HashMap<u64, usize> {
        self.switches.iter().enumerate().map(|(place, switch)| (switch.guid, place)).collect()
    }

    /// The table of a switch.
    #[inline]
    pub fn table(&self, switch: usize) -> &[u8] {
        &self.lft[switch * self.lids..][..self.lids]
    }

    /// Writes an entry of a switch's table.
    #[inline]
    pub fn set(&mut self, switch: usize, lid: usize, port: u8) {
        self.lft[switch * self.lids + lid] = port;
    }
}
