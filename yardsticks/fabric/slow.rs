//! Fabrics that are made to be slow.

use crate::gen::{host, switches};
use crate::least_hops::{fill, Rule};
use crate::model::Fabric;
use crate::rng::Rng;

/// One switch with a host of two to the LMC LIDs at each of its ports.
pub fn star(hosts: usize, lmc: u8) -> Fabric {
    let mut fabric = Fabric::new(switches(1, hosts));
    for i in 0..hosts {
        fabric.attach(host(i + 1, lmc, 0, i + 1));
    }
    fabric.make_tables();
    fill(&mut fabric, Rule::LeastHops);
    fabric
}

/// Two switches with a link, which half of all routes take, and so many hosts of two to the LMC LIDs at each.
pub fn pair(hosts: usize, lmc: u8) -> Fabric {
    let mut fabric = Fabric::new(switches(2, hosts + 1));
    fabric.link(0, 1, 1, 1);
    for i in 0..2 * hosts {
        fabric.attach(host(i + 1, lmc, i / hosts, i % hosts + 2));
    }
    fabric.make_tables();
    fill(&mut fabric, Rule::LeastHops);
    fabric
}

/// A line of switches without LIDs, and so many hosts at each of its two ends. GUIDs rise along it, or are mixed.
pub fn chain(count: usize, hosts: usize, is_mixed: bool) -> Fabric {
    let order = if is_mixed { Rng(7).shuffled(count) } else { (0..count).collect() };
    let mut fabric = Fabric::new(switches(count, hosts + 2));
    for switch in &mut fabric.switches {
        switch.lid = 0;
    }
    for pair in order.windows(2) {
        fabric.link(pair[0], 2, pair[1], 1);
    }
    for i in 0..2 * hosts {
        let end = if i < hosts { order[0] } else { order[count - 1] };
        fabric.attach(host(i + 1, 0, end, i % hosts + 3));
    }
    fabric.make_tables();
    for i in 0..2 * hosts {
        for switch in 0..count {
            fabric.set(switch, i + 1, if i < hosts { 1 } else { 2 });
        }
        fabric.set(fabric.hosts[i].switch, i + 1, fabric.hosts[i].port);
    }
    fabric
}
