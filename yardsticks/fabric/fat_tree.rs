//! Fat trees with d-mod-k tables.

use crate::gen::{attach_hosts, switches};
use crate::model::{Fabric, Host};

/// A three-level fat tree of switches with so many ports, and so many hosts at each leaf.
pub fn fat_tree(ports: usize, hosts: usize) -> Fabric {
    let tree = FatTree { pods: ports, half: ports / 2 };
    let mut fabric = Fabric::new(switches(tree.core(tree.half, 0), ports));
    tree.link(&mut fabric);
    attach_hosts(&mut fabric, tree.leaves(), hosts.min(tree.half), 1);
    fabric.make_tables();
    for leaf in 0..tree.leaves() {
        tree.route_to_leaf(&mut fabric, leaf + 1, leaf, 0, leaf);
    }
    for number in 0..fabric.hosts.len() {
        let Host { lid, switch, port, .. } = fabric.hosts[number];
        tree.route_to_leaf(&mut fabric, usize::from(lid), switch, port, number);
    }
    for pod in 0..tree.pods {
        for place in 0..tree.half {
            tree.route_to_aggregation(&mut fabric, pod, place);
        }
    }
    for group in 0..tree.half {
        for place in 0..tree.half {
            tree.route_to_core(&mut fabric, group, place);
        }
    }
    fabric
}

/// Leaves and aggregation switches stand in pods, half as many of each as a switch has ports. An aggregation switch is
/// linked with each leaf of its pod, and with each core of the group of its place.
struct FatTree {
    pods: usize,
    half: usize,
}

/// A switch of a fat tree.
enum Level {
    Leaf(usize),
    /// By pod and place.
    Aggregation(usize, usize),
    Core(usize),
}

impl FatTree {
    fn leaves(&self) -> usize {
        self.pods * self.half
    }

    fn leaf(&self, pod: usize, place: usize) -> usize {
        pod * self.half + place
    }

    fn aggregation(&self, pod: usize, place: usize) -> usize {
        self.leaves() + pod * self.half + place
    }

    fn core(&self, group: usize, place: usize) -> usize {
        2 * self.leaves() + group * self.half + place
    }

    /// The port up to a place; those of leaves and aggregation switches come after the ports down.
    fn up(&self, place: usize) -> u8 {
        (self.half + 1 + place) as u8
    }

    fn link(&self, fabric: &mut Fabric) {
        for pod in 0..self.pods {
            for place in 0..self.half {
                let aggregation = self.aggregation(pod, place);
                for other in 0..self.half {
                    fabric.link(self.leaf(pod, other), self.up(place), aggregation, down(other));
                    fabric.link(aggregation, self.up(other), self.core(place, other), down(pod));
                }
            }
        }
    }

    /// Writes the entries for a LID by the port of each switch.
    fn fill(&self, fabric: &mut Fabric, lid: usize, port: impl Fn(Level) -> u8) {
        for leaf in 0..self.leaves() {
            fabric.set(leaf, lid, port(Level::Leaf(leaf)));
        }
        for pod in 0..self.pods {
            for place in 0..self.half {
                fabric.set(self.aggregation(pod, place), lid, port(Level::Aggregation(pod, place)));
            }
        }
        for core in self.core(0, 0)..self.core(self.half, 0) {
            fabric.set(core, lid, port(Level::Core(core)));
        }
    }

    /// Fills in the ways to a LID at a port of a leaf, which are spread by a number.
    fn route_to_leaf(&self, fabric: &mut Fabric, lid: usize, leaf: usize, port: u8, number: usize) {
        let (pod, place) = (leaf / self.half, leaf % self.half);
        self.fill(fabric, lid, |level| match level {
            Level::Leaf(at) if at == leaf => port,
            Level::Leaf(_) => self.up(number % self.half),
            Level::Aggregation(at, _) if at == pod => down(place),
            Level::Aggregation(..) => self.up(number / self.half % self.half),
            Level::Core(_) => down(pod),
        });
    }

    /// Fills in the ways to an aggregation switch.
    fn route_to_aggregation(&self, fabric: &mut Fabric, pod: usize, place: usize) {
        self.fill(fabric, self.aggregation(pod, place) + 1, |level| match level {
            Level::Leaf(_) => self.up(place),
            Level::Aggregation(at, other) if (at, other) == (pod, place) => 0,
            Level::Aggregation(at, other) if at != pod && other == place => self.up(pod % self.half),
            Level::Aggregation(..) => down(0),
            Level::Core(_) => down(pod),
        });
    }

    /// Fills in the ways to a core.
    fn route_to_core(&self, fabric: &mut Fabric, group: usize, place: usize) {
        let core = self.core(group, place);
        self.fill(fabric, core + 1, |level| match level {
            Level::Leaf(_) => self.up(group),
            Level::Aggregation(_, other) if other == group => self.up(place),
            Level::Aggregation(..) => down(0),
            Level::Core(at) if at == core => 0,
            Level::Core(_) => down(place),
        });
    }
}

/// The port down to a place, or from a core to a pod.
fn down(place: usize) -> u8 {
    (1 + place) as u8
}
