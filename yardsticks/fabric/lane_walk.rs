//! The dependencies of all routes with lanes by pointers, LID by LID.

use crate::bits::Bits;
use crate::columns::{each_column, Column};
use crate::graph::Graph;
use crate::hop::{Hop, Hops};
use crate::lanes::{Lanes, Start, DISCARD, LEVELS};
use crate::model::Fabric;
use crate::traffic::{Owner, Sources};

/// Adds the dependencies of all routes, and counts how often packets are discarded at their first switch.
pub fn walk_lanes(sources: &Sources, lanes: &Lanes, graph: &mut Graph) -> u64 {
    let mut walk = LaneWalk::new(sources, lanes, graph);
    each_column(sources, |column| walk.take(column));
    walk.discards
}

struct LaneWalk<'a> {
    sources: &'a Sources<'a>,
    lanes: &'a Lanes,
    graph: &'a mut Graph,
    discards: u64,
    /// For each slot and class, the lanes with which the end ports at the switch begin there.
    first_lanes: Vec<u16>,
    /// The hosts at each switch.
    hosts: Vec<Vec<usize>>,
    all_hops: Hops<'a>,
    /// Where each switch sends in the column.
    hops: Vec<Hop>,
    /// The switches to which routes come.
    reached: Vec<usize>,
    is_reached: Vec<bool>,
    /// From how many of these switches each is entered.
    entered: Vec<u32>,
    /// The classes with which packets come to each switch or begin there.
    classes: Vec<u16>,
    /// For each switch and class, the lanes of the channel by which it sends.
    out: Vec<u16>,
}

impl<'a> LaneWalk<'a> {
    fn new(sources: &'a Sources<'a>, lanes: &'a Lanes, graph: &'a mut Graph) -> LaneWalk<'a> {
        let fabric = sources.fabric;
        let switches = fabric.switches.len();
        let hosts = fabric.hosts_by_switch();
        LaneWalk {
            sources,
            lanes,
            graph,
            discards: 0,
            first_lanes: first_lanes(fabric, lanes, &hosts),
            hosts,
            all_hops: Hops::new(fabric),
            hops: vec![Hop::MISSING; switches],
            reached: Vec::new(),
            is_reached: vec![false; switches],
            entered: vec![0; switches],
            classes: vec![0; switches],
            out: vec![0; switches * lanes.classes],
        }
    }

    /// Follows the routes to one LID.
    fn take(&mut self, column: &Column) {
        self.forget();
        self.all_hops.fill(column.ports, &mut self.hops);
        let sources = self.sources;
        let home = sources.home(column.owner);
        for &start in &sources.starts {
            if sources.sending(start, home) > 0 {
                self.begin(start, column);
                self.begin_by_pairs(start, column);
                self.reach(start);
            }
        }
        self.spread(column);
    }

    /// Forgets the column before.
    fn forget(&mut self) {
        let classes = self.lanes.classes;
        for switch in self.reached.drain(..) {
            self.is_reached[switch] = false;
            self.entered[switch] = 0;
            self.classes[switch] = 0;
            self.out[switch * classes..][..classes].fill(0);
        }
    }

    /// Takes the lanes with which all end ports at a switch begin.
    fn begin(&mut self, switch: usize, column: &Column) {
        let (fabric, lanes) = (self.sources.fabric, self.lanes);
        let classes = lanes.starting(fabric, switch, column.owner);
        self.classes[switch] |= classes;
        if self.hops[switch].is_end() {
            return;
        }
        let slot = fabric.slot(switch, column.ports[switch]);
        for class in Bits(u64::from(classes)) {
            let set = self.first_lanes[slot * lanes.classes + class];
            self.discards += u64::from(set >> DISCARD & 1);
            self.out[switch * lanes.classes + class] |= set & !(1 << DISCARD);
        }
    }

    /// Takes the lanes with which the hosts at a switch begin, if each has its levels.
    fn begin_by_pairs(&mut self, switch: usize, column: &Column) {
        let Start::Pairs(levels) = &self.lanes.start else { return };
        if self.hops[switch].is_end() {
            return;
        }
        let fabric = self.sources.fabric;
        let own = self.lanes.of(fabric, switch);
        for &host in &self.hosts[switch] {
            let class = usize::from(levels[host][column.lid]);
            if column.owner == Owner::Host(host as u32) || class >= LEVELS {
                continue;
            }
            let lane = own.lane(fabric.hosts[host].port, column.ports[switch], class);
            if lane == DISCARD {
                self.discards += 1;
                continue;
            }
            self.classes[switch] |= 1 << class;
            self.out[switch * self.lanes.classes + class] |= 1 << lane;
        }
    }

    /// Notes the switches to which the route from one comes, up to one that is noted.
    fn reach(&mut self, start: usize) {
        let mut switch = start;
        while !self.is_reached[switch] {
            self.is_reached[switch] = true;
            self.reached.push(switch);
            if self.hops[switch].is_end() {
                break;
            }
            switch = self.hops[switch].switch();
            self.entered[switch] += 1;
        }
    }

    /// Passes on from each switch after all before it; if routes go round, again and again until nothing is new.
    fn spread(&mut self, column: &Column) {
        let is_first = |&switch: &usize| self.entered[switch] == 0;
        let mut ready: Vec<usize> = self.reached.iter().copied().filter(is_first).collect();
        let mut done = 0;
        while let Some(switch) = ready.pop() {
            done += 1;
            self.pass(switch, column);
            let hop = self.hops[switch];
            if !hop.is_end() {
                let entered = &mut self.entered[hop.switch()];
                *entered -= 1;
                if *entered == 0 {
                    ready.push(hop.switch());
                }
            }
        }
        if done < self.reached.len() {
            while self.pass_from_all(column) {}
        }
    }

    fn pass_from_all(&mut self, column: &Column) -> bool {
        let mut is_new = false;
        for i in 0..self.reached.len() {
            is_new |= self.pass(self.reached[i], column);
        }
        is_new
    }

    /// Passes packets on from a switch to the next one; says whether a lane is new there.
    fn pass(&mut self, switch: usize, column: &Column) -> bool {
        let hop = self.hops[switch];
        if hop.is_end() {
            return false;
        }
        let next = hop.switch();
        self.classes[next] |= self.classes[switch];
        if self.hops[next].is_end() {
            return false;
        }
        let (fabric, lanes) = (self.sources.fabric, self.lanes);
        let (slot, port) = (fabric.slot(switch, column.ports[switch]), column.ports[next]);
        let next_lanes = lanes.of(fabric, next).classes(hop.port(), port);
        let mut is_new = false;
        for class in Bits(u64::from(self.classes[switch])) {
            let (came, lane) = (self.out[switch * lanes.classes + class], next_lanes[class]);
            if lane == DISCARD || came == 0 {
                continue;
            }
            for before in Bits(u64::from(came)) {
                self.graph.add_lanes((slot, before as u8), (port, lane));
            }
            let out = &mut self.out[next * lanes.classes + class];
            is_new |= *out >> lane & 1 == 0;
            *out |= 1 << lane;
        }
        is_new
    }
}

/// For each slot and class, the lanes with which the end ports at the switch begin there.
fn first_lanes(fabric: &Fabric, lanes: &Lanes, hosts: &[Vec<usize>]) -> Vec<u16> {
    let mut first = vec![0; fabric.far.len() * lanes.classes];
    for (switch, hosts) in hosts.iter().enumerate() {
        let own = lanes.of(fabric, switch);
        let ports = hosts.iter().map(|&host| fabric.hosts[host].port);
        for entry in std::iter::once(0).chain(ports) {
            let slots = &mut first[fabric.slot(switch, 0) * lanes.classes..];
            for (set, &lane) in slots.iter_mut().zip(own.of_port(entry)) {
                *set |= 1 << lane;
            }
        }
    }
    first
}
