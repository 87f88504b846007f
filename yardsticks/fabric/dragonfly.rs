//! Dragonflies.

use crate::gen::{attach_hosts, switches};
use crate::least_hops::{fill, Rule};
use crate::model::Fabric;

/// A dragonfly: groups of so many switches that are joined each to each, with so many links to other groups at each
/// switch, one between any two groups.
pub fn dragonfly(size: usize, global: usize, hosts: usize, rule: Rule) -> Fabric {
    let groups = size * global + 1;
    let mut fabric = Fabric::new(switches(groups * size, size - 1 + global + hosts));
    for group in 0..groups {
        link_group(&mut fabric, group * size, size);
    }
    // the switch and port of a group's link of a number
    let end = |group: usize, number: usize| (group * size + number / global, (size + number % global) as u8);
    for one in 0..groups {
        for other in one + 1..groups {
            let (switch, port) = end(one, other - one - 1);
            let (other_switch, other_port) = end(other, groups - (other - one) - 1);
            fabric.link(switch, port, other_switch, other_port);
        }
    }
    attach_hosts(&mut fabric, groups * size, hosts, size + global);
    fabric.make_tables();
    fill(&mut fabric, rule);
    fabric
}

/// Links the switches of a group, from a first one on, each to each.
fn link_group(fabric: &mut Fabric, first: usize, size: usize) {
    for one in 0..size {
        for other in one + 1..size {
            fabric.link(first + one, other as u8, first + other, (one + 1) as u8);
        }
    }
}
