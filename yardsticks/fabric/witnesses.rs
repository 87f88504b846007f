//! Which routes have the dependencies of a cycle.

use crate::columns::{each_column, Column};
use crate::model::{Fabric, Far};
use crate::traffic::{Sender, Sources};

/// The least LID of a route that has a dependency, and of the routes there the least GUID of a source.
#[derive(Clone, Copy)]
pub struct Witness {
    pub lid: usize,
    pub source: u64,
}

/// A witness for each dependency of a cycle without lanes.
pub fn witnesses(sources: &Sources, cycle: &[usize]) -> Vec<Witness> {
    let dependencies: Vec<Dependency> = (0..cycle.len())
        .map(|i| Dependency::new(sources.fabric, cycle[i], cycle[(i + 1) % cycle.len()]))
        .collect();
    let senders = sources.senders();
    let mut found = vec![None; cycle.len()];
    each_column(sources, |column| {
        for (found, dependency) in found.iter_mut().zip(&dependencies) {
            if found.is_none() && dependency.is_in(column) {
                *found = witness(sources.fabric, &senders, column, dependency.switch);
            }
        }
    });
    found.into_iter().map(|witness| witness.expect("a route has each dependency")).collect()
}

/// A dependency: the ports by which a switch and the next one send.
struct Dependency {
    switch: usize,
    port: u8,
    next: usize,
    next_port: u8,
}

impl Dependency {
    /// The dependency of a slot on another one.
    fn new(fabric: &Fabric, slot: usize, next_slot: usize) -> Dependency {
        let (switch, next) = (fabric.switch_of(slot), fabric.switch_of(next_slot));
        let port = |switch, slot: usize| (slot - fabric.slot(switch, 0)) as u8;
        Dependency { switch, port: port(switch, slot), next, next_port: port(next, next_slot) }
    }

    /// Whether a route to the LID of a column has it, if one comes to its first switch.
    #[inline]
    fn is_in(&self, column: &Column) -> bool {
        column.ports[self.switch] == self.port && column.ports[self.next] == self.next_port
    }
}

/// Of the routes to the LID of a column that come to a switch, that from the least source.
fn witness(fabric: &Fabric, senders: &[Sender], column: &Column, switch: usize) -> Option<Witness> {
    let mut coming = Coming::new(fabric, column, switch);
    let sender =
        senders.iter().find(|sender| sender.owner != column.owner && coming.comes_from(sender.switch))?;
    Some(Witness { lid: column.lid, source: sender.guid })
}

/// The switches from which routes come to one, as far as it was asked.
struct Coming<'a> {
    fabric: &'a Fabric,
    ports: &'a [u8],
    known: Vec<Option<bool>>,
    path: Vec<usize>,
}

impl<'a> Coming<'a> {
    fn new(fabric: &'a Fabric, column: &Column<'a>, target: usize) -> Coming<'a> {
        let mut known = vec![None; column.ports.len()];
        known[target] = Some(true);
        Coming { fabric, ports: column.ports, known, path: Vec::new() }
    }

    /// Whether the route from a switch comes to the target.
    fn comes_from(&mut self, start: usize) -> bool {
        let mut switch = start;
        let comes = loop {
            if let Some(comes) = self.known[switch] {
                break comes;
            }
            // a route that goes round comes back here
            self.known[switch] = Some(false);
            self.path.push(switch);
            match self.fabric.far(switch, self.ports[switch]) {
                Far::Switch(next, _) => switch = next as usize,
                _ => break false,
            }
        };
        for switch in self.path.drain(..) {
            self.known[switch] = Some(comes);
        }
        comes
    }
}
