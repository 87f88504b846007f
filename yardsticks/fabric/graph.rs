//! The channel dependency graph, as rows of bits.

use crate::bits::Bits;
use crate::model::{Fabric, Far};
use std::slice::Iter;

/// How many bits a word has.
const WORD: usize = u64::BITS as usize;

/// The dependencies of channels. A channel is a directed link from a switch to a switch on a lane. Its node is the
/// slot of its port times the lanes, plus its lane. Its row has a bit for each port and lane of the switch to which
/// it leads.
#[derive(PartialEq)]
pub struct Graph {
    /// How many lanes there are.
    pub lanes: usize,
    /// How many words a row has.
    width: usize,
    words: Vec<u64>,
}

impl Graph {
    /// The graph of a fabric's channels without dependencies.
    pub fn new(fabric: &Fabric, lanes: usize) -> Graph {
        let ports = fabric.switches.iter().map(|switch| usize::from(switch.ports)).max().unwrap_or(0);
        let width = (ports * lanes).div_ceil(WORD);
        Graph { lanes, width, words: vec![0; fabric.far.len() * lanes * width] }
    }

    /// Adds the dependency of a port, by its slot, on the next one, if there is one lane.
    #[inline]
    pub fn add(&mut self, slot: usize, next: u8) {
        self.set(slot, usize::from(next) - 1);
    }

    /// Adds the dependency of a port, by its slot, on the next one, each with a lane.
    #[inline]
    pub fn add_lanes(&mut self, (slot, lane): (usize, u8), (next, next_lane): (u8, u8)) {
        let bit = (usize::from(next) - 1) * self.lanes + usize::from(next_lane);
        self.set(slot * self.lanes + usize::from(lane), bit);
    }

    #[inline]
    fn set(&mut self, node: usize, bit: usize) {
        self.words[node * self.width + bit / WORD] |= 1 << (bit % WORD);
    }

    /// Takes back the dependencies on ports that lead to no switch, if there is one lane.
    pub fn keep_channels(&mut self, fabric: &Fabric) {
        let mut channels = vec![0u64; fabric.switches.len() * self.width];
        for switch in 0..fabric.switches.len() {
            for (port, ..) in fabric.links(switch) {
                let bit = usize::from(port) - 1;
                channels[switch * self.width + bit / WORD] |= 1 << (bit % WORD);
            }
        }
        for switch in 0..fabric.switches.len() {
            for (port, next, _) in fabric.links(switch) {
                let row = &mut self.words[fabric.slot(switch, port) * self.width..];
                for (word, &kept) in row.iter_mut().zip(&channels[next * self.width..][..self.width]) {
                    *word &= kept;
                }
            }
        }
    }

    /// How many dependencies there are.
    pub fn count(&self) -> usize {
        self.words.iter().map(|word| word.count_ones() as usize).sum()
    }

    fn row(&self, node: usize) -> &[u64] {
        &self.words[node * self.width..][..self.width]
    }
}

/// The channels of a fabric, by their nodes, with their dependencies.
pub struct Channels<'a> {
    fabric: &'a Fabric,
    graph: &'a Graph,
}

impl<'a> Channels<'a> {
    pub fn new(fabric: &'a Fabric, graph: &'a Graph) -> Channels<'a> {
        Channels { fabric, graph }
    }

    /// How many lanes there are.
    pub fn lanes(&self) -> usize {
        self.graph.lanes
    }

    /// How many nodes there are. Those of ports that lead to no switch are no channels.
    pub fn nodes(&self) -> usize {
        self.fabric.far.len() * self.graph.lanes
    }

    /// The channels, rising.
    pub fn all(&self) -> impl Iterator<Item = usize> + 'a {
        let Channels { fabric, graph } = *self;
        let slots = fabric.far.iter().enumerate();
        slots
            .filter(|(_, far)| matches!(far, Far::Switch(..)))
            .flat_map(move |(slot, _)| slot * graph.lanes..(slot + 1) * graph.lanes)
    }

    /// The channels to which one leads, rising.
    #[inline]
    pub fn successors(&self, channel: usize) -> Successors<'a> {
        self.successors_from(channel, 0)
    }

    /// The channels to which one leads that are not below a least one, rising.
    #[inline]
    pub fn successors_from(&self, channel: usize, least: usize) -> Successors<'a> {
        let Far::Switch(switch, _) = self.fabric.far[channel / self.graph.lanes] else {
            unreachable!("no channel")
        };
        let first = self.fabric.slot(switch as usize, 1) * self.graph.lanes;
        let (word, bit) = (least.saturating_sub(first) / WORD, least.saturating_sub(first) % WORD);
        let mut words = self.graph.row(channel)[word..].iter();
        let bits = words.next().map_or(0, |bits| bits >> bit << bit);
        Successors { words, bits: Bits(bits), ahead: first + (word + 1) * WORD }
    }

    /// The name of a channel: switch, port and, if there are several, lane.
    pub fn name(&self, channel: usize) -> String {
        let (slot, lane) = (channel / self.graph.lanes, channel % self.graph.lanes);
        let switch = self.fabric.switch_of(slot);
        let (guid, port) = (self.fabric.switches[switch].guid, slot - self.fabric.slot(switch, 0));
        match self.graph.lanes {
            1 => format!("0x{guid:016x}[{port}]"),
            _ => format!("0x{guid:016x}[{port}]vl{lane}"),
        }
    }
}

/// Goes over the channels to which one leads.
pub struct Successors<'a> {
    words: Iter<'a, u64>,
    bits: Bits,
    /// The node of the first bit of the next word.
    ahead: usize,
}

impl Iterator for Successors<'_> {
    type Item = usize;

    #[inline]
    fn next(&mut self) -> Option<usize> {
        loop {
            if let Some(place) = self.bits.next() {
                return Some(self.ahead - WORD + place);
            }
            self.bits = Bits(*self.words.next()?);
            self.ahead += WORD;
        }
    }
}
