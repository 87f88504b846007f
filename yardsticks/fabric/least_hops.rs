//! Tables by least hops over any fabric.

use crate::model::Fabric;
use std::collections::VecDeque;

/// Which ways tables take.
#[derive(Clone, Copy, PartialEq, Eq)]
pub enum Rule {
    /// Any of least hops.
    LeastHops,
    /// Down if a way down leads to the target, and else up, by the levels of a tree from switch 0.
    UpDown,
}

/// Fills in the ways to all LIDs; ports that are equally good take turns.
pub fn fill(fabric: &mut Fabric, rule: Rule) {
    let links = Links::new(fabric, rule);
    let mut turn = 0;
    for (target, lids) in lids_by_switch(fabric).iter().enumerate() {
        let ways = links.ways(target);
        for switch in 0..fabric.switches.len() {
            if switch == target {
                lids.iter().for_each(|&(lid, port)| fabric.set(switch, lid, port));
                continue;
            }
            let ports = links.best_ports(&ways, switch);
            if !ports.is_empty() {
                for &(lid, _) in lids {
                    turn += 1;
                    fabric.set(switch, lid, ports[turn % ports.len()]);
                }
            }
        }
    }
}

/// The LIDs at each switch, with the ports at which they are.
fn lids_by_switch(fabric: &Fabric) -> Vec<Vec<(usize, u8)>> {
    let mut lids: Vec<Vec<(usize, u8)>> =
        fabric.switches.iter().map(|switch| vec![(usize::from(switch.lid), 0)]).collect();
    for host in &fabric.hosts {
        lids[host.switch].extend(host.lids().map(|lid| (lid, host.port)));
    }
    lids
}

/// How many hops a switch is away from which there is no way.
const NEVER: u32 = u32::MAX;

/// The ways from each switch to a target.
struct Ways {
    hops: Vec<u32>,
    /// Whether all hops go down.
    is_down: Vec<bool>,
}

/// The links between switches, and which of these are above which.
struct Links {
    rule: Rule,
    /// The links of each switch: its port, and the other switch.
    by_switch: Vec<Vec<(u8, usize)>>,
    /// The level and the number of each switch; that with the less is above.
    depth: Vec<(u32, usize)>,
    /// The switches, each after all that are above it.
    from_above: Vec<usize>,
}

impl Links {
    fn new(fabric: &Fabric, rule: Rule) -> Links {
        let switches = fabric.switches.len();
        let by_switch: Vec<Vec<(u8, usize)>> = (0..switches)
            .map(|switch| fabric.links(switch).map(|(port, other, _)| (port, other)).collect())
            .collect();
        let depth: Vec<(u32, usize)> = hops_to(&by_switch, 0, |_, _| true).into_iter().zip(0..).collect();
        let mut from_above: Vec<usize> = (0..switches).collect();
        from_above.sort_by_key(|&switch| depth[switch]);
        Links { rule, by_switch, depth, from_above }
    }

    fn is_above(&self, switch: usize, other: usize) -> bool {
        self.depth[switch] < self.depth[other]
    }

    fn ways(&self, target: usize) -> Ways {
        let is_lawful = |from, to| self.rule == Rule::LeastHops || self.is_above(from, to);
        let mut hops = hops_to(&self.by_switch, target, is_lawful);
        let is_down = hops.iter().map(|&hops| hops != NEVER).collect();
        if self.rule == Rule::UpDown {
            self.climb(&mut hops);
        }
        Ways { hops, is_down }
    }

    /// Adds the ways that go up to a switch from which one leads down.
    fn climb(&self, hops: &mut [u32]) {
        for &switch in &self.from_above {
            if hops[switch] == NEVER {
                let above = self.by_switch[switch].iter().filter(|&&(_, other)| self.is_above(other, switch));
                let least = above.map(|&(_, other)| hops[other]).min().unwrap_or(NEVER);
                hops[switch] = least.saturating_add(1);
            }
        }
    }

    /// The ports by which a way goes on from a switch.
    fn best_ports(&self, ways: &Ways, switch: usize) -> Vec<u8> {
        let Ways { hops, is_down } = ways;
        let is_lawful = |other: usize| match self.rule {
            Rule::LeastHops => true,
            Rule::UpDown if is_down[switch] => is_down[other] && self.is_above(switch, other),
            Rule::UpDown => self.is_above(other, switch),
        };
        let is_best = |other: usize| hops[other] != NEVER && hops[other] + 1 == hops[switch];
        let best = self.by_switch[switch].iter().filter(|&&(_, other)| is_best(other) && is_lawful(other));
        best.map(|&(port, _)| port).collect()
    }
}

/// How many hops each switch is away from a target, if only lawful ones are taken, from a switch to the next.
fn hops_to(links: &[Vec<(u8, usize)>], target: usize, is_lawful: impl Fn(usize, usize) -> bool) -> Vec<u32> {
    let mut hops = vec![NEVER; links.len()];
    hops[target] = 0;
    let mut queue = VecDeque::from([target]);
    while let Some(switch) = queue.pop_front() {
        for &(_, before) in &links[switch] {
            if hops[before] == NEVER && is_lawful(before, switch) {
                hops[before] = hops[switch] + 1;
                queue.push_back(before);
            }
        }
    }
    hops
}
