//! The files that OpenSM dumps, beside the tables.

use crate::lanes::{Lanes, Start, DISCARD, LEVELS, NO_LEVEL};
use crate::model::{Fabric, Switch};
use crate::wiring::{joined, EndPort, Link};
use std::collections::{BTreeMap, BTreeSet, HashMap};
use std::io::BufRead;

/// Reads a topology, with a line for each end of each link.
pub fn read_subnet(input: impl BufRead) -> Fabric {
    let mut switches = BTreeMap::new();
    let mut links = Vec::new();
    let mut end_ports = BTreeSet::new();
    for line in input.lines() {
        let line = line.unwrap();
        let Some((near, far)) = line.split_once("} { ") else { continue };
        let (near, far) = (End::read(near.trim_start_matches("{ ")), End::read(far));
        for end in [&near, &far] {
            if end.is_switch {
                switches.insert(end.node, end.switch());
            }
        }
        match (near.is_switch, far.is_switch) {
            (true, true) => links.push(near.link(&far)),
            (true, false) => end_ports.extend([far.end_port(&near)]),
            (false, true) => end_ports.extend([near.end_port(&far)]),
            (false, false) => {}
        }
    }
    joined(switches.into_values().collect(), &links, end_ports)
}

/// One end of a link, by GUIDs.
struct End {
    is_switch: bool,
    node: u64,
    port_guid: u64,
    lid: u16,
    port: u8,
    /// How many ports its node has.
    ports: u8,
}

impl End {
    fn read(text: &str) -> End {
        End {
            is_switch: text.starts_with("SW"),
            node: hex_after(text, "NodeGUID:"),
            port_guid: hex_after(text, "PortGUID:"),
            lid: hex_after(text, " LID:") as u16,
            port: hex_after(text, " PN:") as u8,
            ports: hex_after(text, "Ports:") as u8,
        }
    }

    fn switch(&self) -> Switch {
        Switch { guid: self.node, ports: self.ports, lid: self.lid, lmc: 0, name: String::new() }
    }

    fn link(&self, far: &End) -> Link {
        Link { switch: self.node, port: self.port, other: far.node, other_port: far.port }
    }

    fn end_port(&self, switch: &End) -> EndPort {
        let End { port_guid: guid, port: number, lid, .. } = *self;
        EndPort { guid, number, switch: switch.node, port: switch.port, lid, lmc: 0 }
    }
}

/// The hexadecimal number after the first place of a word.
fn hex_after(text: &str, word: &str) -> u64 {
    let (_, rest) = text.split_once(word).unwrap();
    let digits = rest.split(|byte: char| !byte.is_ascii_hexdigit()).next().unwrap();
    u64::from_str_radix(digits, 16).unwrap()
}

/// Reads the lanes of the service levels, and the levels with which hosts send. Without these all send with all.
pub fn read_lanes(fabric: &Fabric, lanes: impl BufRead, levels: Option<impl BufRead>) -> Lanes {
    let tables = read_tables(fabric, lanes);
    let used = tables.iter().flatten().filter(|&&lane| lane < DISCARD);
    let greatest = used.max().copied().unwrap_or(0);
    let start = match levels {
        None => Start::all(LEVELS),
        Some(levels) => Start::Pairs(read_levels(fabric, levels)),
    };
    Lanes { count: usize::from(greatest) + 1, classes: LEVELS, tables, start }
}

/// Reads the lanes of each switch by ports in and out. Other nodes are passed over.
fn read_tables(fabric: &Fabric, input: impl BufRead) -> Vec<Vec<u8>> {
    let places = fabric.places();
    let side = |switch: usize| usize::from(fabric.switches[switch].ports) + 1;
    let size = |switch: usize| side(switch) * side(switch) * LEVELS;
    let mut tables: Vec<Vec<u8>> =
        (0..fabric.switches.len()).map(|switch| vec![DISCARD; size(switch)]).collect();
    let mut here = None;
    for line in input.lines() {
        let line = line.unwrap();
        if let Some(guid) = guid(&line) {
            here = places.get(&guid).copied().filter(|_| line.starts_with("Switch"));
            continue;
        }
        let (Some(switch), false) = (here, line.starts_with('#')) else { continue };
        let Some((ports, lanes)) = line.split_once(':') else { continue };
        let ports: Vec<usize> = ports.split_whitespace().map(|port| port.parse().unwrap()).collect();
        let first = (ports[0] * side(switch) + ports[1]) * LEVELS;
        for (level, lane) in lanes.split_whitespace().enumerate() {
            tables[switch][first + level] = lane.parse().unwrap();
        }
    }
    tables
}

/// Reads the level with which each host sends to each LID.
fn read_levels(fabric: &Fabric, input: impl BufRead) -> Vec<Vec<u8>> {
    let hosts: HashMap<u64, usize> =
        fabric.hosts.iter().enumerate().map(|(place, host)| (host.guid, place)).collect();
    let mut levels = vec![vec![NO_LEVEL; fabric.lids]; fabric.hosts.len()];
    let mut here = None;
    for line in input.lines() {
        let line = line.unwrap();
        if let Some(guid) = guid(&line) {
            here = hosts.get(&guid).copied().filter(|_| line.starts_with("Channel"));
        } else if let (Some(host), Some(rest)) = (here, line.strip_prefix("0x")) {
            let lid = usize::from_str_radix(&rest[..4], 16).unwrap();
            levels[host][lid] = rest[7..].trim().parse().unwrap();
        }
    }
    levels
}

/// The GUID in the head of a node.
fn guid(line: &str) -> Option<u64> {
    let (_, rest) = line.split_once(" 0x")?;
    Some(u64::from_str_radix(&rest[..16], 16).unwrap())
}
