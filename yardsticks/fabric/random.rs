//! Random fabrics.

use crate::gen::{attach_hosts, switches};
use crate::least_hops::{fill, Rule};
use crate::model::{Fabric, Host};
use crate::rng::Rng;

/// A random fabric with tables by a rule.
pub fn random(count: usize, degree: usize, hosts: usize, rule: Rule) -> Fabric {
    let mut fabric = joined(count, degree, hosts);
    fill(&mut fabric, rule);
    fabric
}

/// A random fabric in which each switch sends what is for another switch out of any of its links.
pub fn wild(count: usize, degree: usize, hosts: usize) -> Fabric {
    let mut rng = Rng(11);
    let mut fabric = joined(count, degree, hosts);
    for switch in 0..count {
        for lid in 1..fabric.lids {
            fabric.set(switch, lid, 1 + rng.below(degree) as u8);
        }
        fabric.set(switch, usize::from(fabric.switches[switch].lid), 0);
    }
    for host in 0..fabric.hosts.len() {
        let Host { lid, switch, port, .. } = fabric.hosts[host];
        fabric.set(switch, usize::from(lid), port);
    }
    fabric
}

/// Switches in half as many random rings as each has links, with so many hosts at each.
fn joined(count: usize, degree: usize, hosts: usize) -> Fabric {
    let mut rng = Rng(7);
    let mut fabric = Fabric::new(switches(count, degree + hosts));
    let mut used = vec![0; count];
    let mut next_port = |switch: usize| {
        used[switch] += 1;
        used[switch]
    };
    for _ in 0..degree / 2 {
        let ring = rng.shuffled(count);
        for (i, &switch) in ring.iter().enumerate() {
            let other = ring[(i + 1) % count];
            let (port, other_port) = (next_port(switch), next_port(other));
            fabric.link(switch, port, other, other_port);
        }
    }
    attach_hosts(&mut fabric, count, hosts, degree + 1);
    fabric.make_tables();
    fabric
}
