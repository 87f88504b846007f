//! The dependencies of all routes with lanes by waves: of each class 64 LIDs at a time. At a switch the ports in stand
//! in groups that have the same lanes, and waves come to these.

use crate::bits::Bits;
use crate::columns::{blocks, Block};
use crate::front::Front;
use crate::graph::Graph;
use crate::hop::{Hop, Hops};
use crate::lanes::{Lanes, Start, DISCARD, LEVELS};
use crate::model::Fabric;
use crate::traffic::{Owner, Sources};

/// Adds the dependencies of all routes, and says how many groups of ports there are.
pub fn waves_lanes(sources: &Sources, lanes: &Lanes, graph: &mut Graph) -> usize {
    let waves = LaneWaves::new(sources, lanes);
    let mut block = Block::new(sources.fabric);
    let mut front = Front::new(waves.groups.count());
    let mut lids = vec![vec![0; waves.groups.count()]; lanes.classes];
    for (first, owners) in blocks(sources) {
        block.take(sources.fabric, first, owners.len());
        lids.iter_mut().for_each(|lids| lids.fill(0));
        for (i, owner) in owners.iter().enumerate() {
            if let Some(owner) = *owner {
                waves.begin(&mut lids, i, first + i, owner);
            }
        }
        for (class, lids) in lids.iter().enumerate() {
            front.begin(lids);
            waves.spread(class, &block, &mut front, graph);
        }
    }
    waves.groups.count()
}

/// The ports in of each switch in groups with the same lanes.
struct Groups {
    /// The group of each slot.
    by_slot: Vec<u32>,
    /// The switch and the least port of each group.
    least: Vec<(usize, u8)>,
}

impl Groups {
    fn new(fabric: &Fabric, lanes: &Lanes) -> Groups {
        let mut by_slot = Vec::with_capacity(fabric.far.len());
        let mut least: Vec<(usize, u8)> = Vec::new();
        for (switch, it) in fabric.switches.iter().enumerate() {
            let own = lanes.of(fabric, switch);
            let first = least.len();
            for entry in 0..=it.ports {
                let is_same = |&(_, other): &(usize, u8)| own.of_port(other) == own.of_port(entry);
                let found = least[first..].iter().position(is_same);
                let group = found.map_or(least.len(), |place| first + place);
                if found.is_none() {
                    least.push((switch, entry));
                }
                by_slot.push(group as u32);
            }
        }
        Groups { by_slot, least }
    }

    fn count(&self) -> usize {
        self.least.len()
    }

    #[inline]
    fn of(&self, slot: usize) -> usize {
        self.by_slot[slot] as usize
    }
}

struct LaneWaves<'a> {
    sources: &'a Sources<'a>,
    lanes: &'a Lanes,
    hops: Hops<'a>,
    groups: Groups,
    /// The group of the port of each host.
    of_hosts: Vec<usize>,
    /// The hosts at each switch.
    hosts: Vec<Vec<usize>>,
}

impl<'a> LaneWaves<'a> {
    fn new(sources: &'a Sources<'a>, lanes: &'a Lanes) -> LaneWaves<'a> {
        let fabric = sources.fabric;
        let groups = Groups::new(fabric, lanes);
        let of_hosts =
            fabric.hosts.iter().map(|host| groups.of(fabric.slot(host.switch, host.port))).collect();
        LaneWaves {
            sources,
            lanes,
            hops: Hops::new(fabric),
            groups,
            of_hosts,
            hosts: fabric.hosts_by_switch(),
        }
    }

    /// Adds the bit of a LID to those of the classes and groups with which end ports send to it.
    fn begin(&self, lids: &mut [Vec<u64>], i: usize, lid: usize, owner: Owner) {
        if let Start::Pairs(levels) = &self.lanes.start {
            for (host, (&group, levels)) in self.of_hosts.iter().zip(levels).enumerate() {
                let class = usize::from(levels[lid]);
                if owner != Owner::Host(host as u32) && class < LEVELS {
                    lids[class][group] |= 1 << i;
                }
            }
            return;
        }
        let (sources, home) = (self.sources, self.sources.home(owner));
        for &start in sources.starts.iter().filter(|&&start| sources.sending(start, home) > 0) {
            let classes = self.lanes.starting(sources.fabric, start, owner);
            for class in Bits(u64::from(classes)) {
                // as in the walk, each end port at the switch, and port 0
                lids[class][self.groups.of(self.hops.base(start))] |= 1 << i;
                for &host in &self.hosts[start] {
                    lids[class][self.of_hosts[host]] |= 1 << i;
                }
            }
        }
    }

    /// Lets routes of a class go on until they come nowhere else.
    fn spread(&self, class: usize, block: &Block, front: &mut Front, graph: &mut Graph) {
        let (fabric, lanes, hops) = (self.sources.fabric, self.lanes, &self.hops);
        while let Some((group, lids)) = front.advance() {
            let (switch, entry) = self.groups.least[group];
            let (row, own, own_lanes) = (block.row(switch), hops.of(switch), lanes.of(fabric, switch));
            for i in Bits(lids) {
                let port = row[i];
                let hop = own.get(usize::from(port)).copied().unwrap_or(Hop::DEAD);
                if hop.is_end() {
                    continue;
                }
                let lane = own_lanes.lane(entry, port, class);
                if lane == DISCARD {
                    continue;
                }
                let (next, next_entry) = (hop.switch(), hop.port());
                let next_port = block.row(next)[i];
                if hops.goes_on(next, next_port) {
                    let next_lane = lanes.of(fabric, next).lane(next_entry, next_port, class);
                    if next_lane != DISCARD {
                        let slot = hops.base(switch) + usize::from(port);
                        graph.add_lanes((slot, lane), (next_port, next_lane));
                    }
                }
                front.come(self.groups.of(hops.base(next) + usize::from(next_entry)), i);
            }
        }
    }
}
