//! Fabrics that are made, with their tables.

use crate::dragonfly::dragonfly;
use crate::fat_tree::fat_tree;
use crate::least_hops::Rule;
use crate::model::{Fabric, Host, Switch};
use crate::random::{random, wild};
use crate::slow::{chain, pair, star};
use crate::torus::torus;

/// The greatest LID that is not for multicast.
const MOST_LID: usize = 0xbfff;

/// The fabric of a kind and its numbers.
pub fn by_words(words: &[&str]) -> Fabric {
    let number = |i: usize| -> usize { words[i].parse().unwrap() };
    match words[0] {
        "fattree" => fat_tree(number(1), number(2)),
        "torus" => torus([number(1), number(2), number(3)], number(4), false),
        "mesh" => torus([number(1), number(2), number(3)], number(4), true),
        "minhop" => random(number(1), number(2), number(3), Rule::LeastHops),
        "updown" => random(number(1), number(2), number(3), Rule::UpDown),
        "dragonfly" => dragonfly(number(1), number(2), number(3), Rule::LeastHops),
        "dragonfly-updown" => dragonfly(number(1), number(2), number(3), Rule::UpDown),
        "star" => star(number(1), number(2) as u8),
        "pair" => pair(number(1), number(2) as u8),
        "chain" => chain(number(1), number(2), false),
        "mixed-chain" => chain(number(1), number(2), true),
        "wild" => wild(number(1), number(2), number(3)),
        _ => panic!("kind"),
    }
}

/// So many switches with so many ports, with LIDs from 1 on.
pub fn switches(count: usize, ports: usize) -> Vec<Switch> {
    let switch = |place: usize| Switch {
        guid: 0x0002_c903_0000_0000 + place as u64 * 16,
        ports: ports as u8,
        lid: (place + 1) as u16,
        lmc: 0,
        name: format!("S{place:05}"),
    };
    (0..count).map(switch).collect()
}

/// The host of a number, from 1 on: its LIDs come after those of the numbers below.
pub fn host(number: usize, lmc: u8, switch: usize, port: usize) -> Host {
    Host {
        guid: 0x0008_f104_0000_0000 + number as u64 * 16,
        lid: (number << lmc) as u16,
        lmc,
        switch,
        port: port as u8,
    }
}

/// Attaches so many hosts to each of the first switches, from a port on. They have the LIDs after those of the
/// switches, as far as there are any.
pub fn attach_hosts(fabric: &mut Fabric, switches: usize, hosts: usize, first_port: usize) {
    let first = fabric.switches.len() + 1;
    for (lid, at) in (first..=MOST_LID).zip(0..switches * hosts) {
        fabric.attach(host(lid, 0, at / hosts, first_port + at % hosts));
    }
}
