//! The table that a switch has in use.

use crate::life::{Life, Topology};
use crate::ports::{Ports, PLACES};
use crate::routes::{Graph, Lengths, Table};
use std::collections::HashMap;

pub struct InUse {
    pub epoch: u64,
    /// The number of the switch itself.
    pub number: u8,
    /// The numbers of the topology, rising.
    pub numbers: Vec<u8>,
    pub table: Table,
}

impl InUse {
    /// The table of a member of a topology.
    pub fn new(topology: &Topology, me: Life, epoch: u64, any_routes: bool) -> InUse {
        let mut order: Vec<usize> = (0..topology.entries.len()).collect();
        order.sort_unstable_by_key(|&place| topology.numbers[place]);
        let graph = graph_of(topology, &order);
        let own = order.iter().position(|&place| topology.entries[place].life == me).expect("a member");
        let numbers: Vec<u8> = order.iter().map(|&place| topology.numbers[place]).collect();
        let table = Table::new(&graph, &Lengths::of(&graph), own, any_routes);
        InUse { epoch, number: numbers[own], numbers, table }
    }

    /// The exits for a number other than the own.
    pub fn exits(&self, entry: u8, number: u8) -> Ports {
        match self.numbers.binary_search(&number) {
            Ok(to) if self.table.has_entry(entry) => self.table.rows(self.table.came_down(entry))[to],
            _ => Ports::default(),
        }
    }
}

/// The graph of a topology in the order of its numbers: the links that both ends name.
fn graph_of(topology: &Topology, order: &[usize]) -> Graph {
    let entries: Vec<_> = order.iter().map(|&place| &topology.entries[place]).collect();
    let place: HashMap<Life, usize> =
        entries.iter().enumerate().map(|(at, entry)| (entry.life, at)).collect();
    let mut named = vec![[None; PLACES]; entries.len()];
    for (at, entry) in entries.iter().enumerate() {
        for link in entry.links.iter() {
            if let Some(&other) = place.get(&link.peer.life) {
                named[at][usize::from(link.port)] = Some((other, link.peer.port));
            }
        }
    }
    let mut far = named.clone();
    for (at, ends) in far.iter_mut().enumerate() {
        for (port, end) in ends.iter_mut().enumerate() {
            let is_link = |(other, far): (usize, u8)| {
                other != at && named[other][usize::from(far)] == Some((at, port as u8))
            };
            *end = end.filter(|&end| is_link(end));
        }
    }
    let heights: Vec<_> = entries.iter().map(|entry| (entry.position.level, entry.life)).collect();
    Graph::new(&heights, far)
}
