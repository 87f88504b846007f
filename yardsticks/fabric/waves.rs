//! The dependencies of all routes by waves: 64 LIDs at a time, at each switch to which one of their routes comes.

use crate::bits::Bits;
use crate::columns::{blocks, Block, BLOCK};
use crate::front::Front;
use crate::graph::Graph;
use crate::hop::{Hop, Hops};
use crate::traffic::{Owner, Sources};

/// What waves find beside the dependencies. If these do not lead round, all routes arrive that no entry stops.
#[derive(Default)]
pub struct Reach {
    /// To how many LIDs there are routes.
    pub lids: usize,
    pub routes: u64,
    /// How many entries stop routes before their targets.
    pub stops: u64,
}

/// Adds the dependencies of all routes without lanes.
pub fn waves(sources: &Sources, graph: &mut Graph) -> Reach {
    let fabric = sources.fabric;
    let (hops, senders) = (Hops::new(fabric), sources.total());
    let mut block = Block::new(fabric);
    let mut front = Front::new(fabric.switches.len());
    let mut reach = Reach::default();
    for (first, owners) in blocks(sources) {
        for owner in owners.iter().copied().flatten() {
            reach.lids += 1;
            reach.routes += senders - u64::from(sources.home(owner).is_some());
        }
        block.take(fabric, first, owners.len());
        front.begin(&beginning(sources, owners));
        reach.stops += spread(&hops, &block, &targets(owners), &mut front, graph);
    }
    graph.keep_channels(fabric);
    reach
}

/// The LIDs of a block to which end ports send, at each switch.
fn beginning(sources: &Sources, owners: &[Option<Owner>]) -> Vec<u64> {
    let all = owners.iter().rev().fold(0u64, |lids, owner| lids << 1 | u64::from(owner.is_some()));
    let mut lids = vec![0; sources.fabric.switches.len()];
    for &start in &sources.starts {
        lids[start] = all;
    }
    for (i, owner) in owners.iter().enumerate() {
        let home = owner.and_then(|owner| sources.home(owner));
        // who alone at its switch sends does not send to itself
        if let Some(switch) = home.filter(|&switch| sources.sending(switch, home) == 0) {
            lids[switch] &= !(1 << i);
        }
    }
    lids
}

/// The hops by which the routes to the LIDs of a block are to end.
fn targets(owners: &[Option<Owner>]) -> [Hop; BLOCK] {
    let mut targets = [Hop::DEAD; BLOCK];
    for (target, owner) in targets.iter_mut().zip(owners) {
        *target = owner.map_or(Hop::DEAD, Hop::to);
    }
    targets
}

/// Lets routes go on until they come nowhere else. Counts the entries that stop them before their targets.
fn spread(hops: &Hops, block: &Block, targets: &[Hop; BLOCK], front: &mut Front, graph: &mut Graph) -> u64 {
    let mut stops = 0;
    while let Some((switch, lids)) = front.advance() {
        let (row, own, base) = (block.row(switch), hops.of(switch), hops.base(switch));
        for i in Bits(lids) {
            let port = usize::from(row[i]);
            let hop = own.get(port).copied().unwrap_or(Hop::DEAD);
            if hop.is_end() {
                stops += u64::from(hop != targets[i]);
                continue;
            }
            let next = hop.switch();
            let next_port = block.row(next)[i];
            if hops.has_port(next, next_port) {
                graph.add(base + port, next_port);
            }
            front.come(next, i);
        }
    }
    stops
}
