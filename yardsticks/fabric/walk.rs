//! The dependencies of all routes by pointers, LID by LID, and how the routes end.

use crate::columns::{each_column, Column};
use crate::graph::Graph;
use crate::hop::{End, Hop, Hops};
use crate::traffic::Sources;

/// How the routes end.
#[derive(Default)]
pub struct Arrival {
    /// To how many LIDs there are routes.
    pub lids: usize,
    /// How many hops the longest route has that arrives.
    pub most_hops: u32,
    /// The route from the least source to the least LID that does not arrive.
    pub first_lost: Option<Lost>,
    counts: Counts,
}

impl Arrival {
    /// How many routes there are.
    pub fn routes(&self) -> u64 {
        self.counts.iter().sum()
    }

    /// How many routes arrive.
    pub fn arrived(&self) -> u64 {
        self.ending(End::Arrived)
    }

    /// How many routes end so.
    pub fn ending(&self, end: End) -> u64 {
        self.counts[end as usize]
    }
}

/// A route that does not arrive.
pub struct Lost {
    pub lid: usize,
    /// The GUID of its source.
    pub source: u64,
    /// The switch at which it ends, or the least of those round which it goes.
    pub switch: usize,
    pub end: End,
}

/// How many routes end in each way.
type Counts = [u64; 1 << Mark::END_BITS];

/// What is known of the route from a switch, in one word: how it ends, and after how many hops.
#[derive(Clone, Copy, PartialEq, Eq)]
struct Mark(u32);

impl Mark {
    const END_BITS: u32 = 3;
    /// Nothing.
    const NEW: Mark = Mark(0);
    /// That it is being followed.
    const OPEN: Mark = Mark((1 << Mark::END_BITS) - 1);

    /// The code of the end.
    fn end(self) -> usize {
        self.0 as usize & ((1 << Mark::END_BITS) - 1)
    }

    fn hops(self) -> u32 {
        self.0 >> Mark::END_BITS
    }

    fn one_hop_more(self) -> Mark {
        Mark(self.0 + (1 << Mark::END_BITS))
    }
}

/// Adds the dependencies of all routes without lanes, and gives how the routes end.
pub fn walk(sources: &Sources, graph: &mut Graph) -> Arrival {
    let mut walk = Walk::new(sources, graph);
    each_column(sources, |column| walk.take(column));
    walk.arrival
}

struct Walk<'a> {
    sources: &'a Sources<'a>,
    graph: &'a mut Graph,
    arrival: Arrival,
    all_hops: Hops<'a>,
    /// Where each switch sends in the column.
    hops: Vec<Hop>,
    marks: Vec<Mark>,
    /// The switches that were followed and are not marked yet.
    path: Vec<u32>,
}

impl<'a> Walk<'a> {
    fn new(sources: &'a Sources<'a>, graph: &'a mut Graph) -> Walk<'a> {
        let switches = sources.fabric.switches.len();
        Walk {
            sources,
            graph,
            arrival: Arrival::default(),
            all_hops: Hops::new(sources.fabric),
            hops: vec![Hop::MISSING; switches],
            marks: vec![Mark::NEW; switches],
            path: Vec::new(),
        }
    }

    /// Follows the routes to one LID.
    fn take(&mut self, column: &Column) {
        self.all_hops.fill(column.ports, &mut self.hops);
        self.marks.fill(Mark::NEW);
        let sources = self.sources;
        let (home, target) = (sources.home(column.owner), Hop::to(column.owner));
        let mut counts = Counts::default();
        for &start in &sources.starts {
            let many = sources.sending(start, home);
            if many == 0 {
                continue;
            }
            let mark = self.follow(start, target, column.ports);
            counts[mark.end()] += u64::from(many);
            if mark.end() == End::Arrived as usize {
                self.arrival.most_hops = self.arrival.most_hops.max(mark.hops());
            }
        }
        self.count(column, counts);
    }

    /// Follows the route from a switch, up to one of which it is known how its route ends, and marks all before it.
    #[inline]
    fn follow(&mut self, start: usize, target: Hop, ports: &[u8]) -> Mark {
        let (hops, marks) = (&self.hops[..], &mut self.marks[..]);
        let mut switch = start;
        let mut mark = loop {
            match marks[switch] {
                Mark::NEW => {}
                Mark::OPEN => break Mark(End::Loop as u32),
                known => break known,
            }
            marks[switch] = Mark::OPEN;
            self.path.push(switch as u32);
            let hop = hops[switch];
            if hop.is_end() {
                break Mark(hop.end(target) as u32);
            }
            let next = hop.switch();
            if !hops[next].is_end() {
                self.graph.add(self.all_hops.base(switch) + usize::from(ports[switch]), ports[next]);
            }
            switch = next;
        };
        while let Some(switch) = self.path.pop() {
            mark = mark.one_hop_more();
            marks[switch as usize] = mark;
        }
        mark
    }

    /// Counts the routes to one LID.
    fn count(&mut self, column: &Column, counts: Counts) {
        self.arrival.lids += 1;
        for (sum, count) in self.arrival.counts.iter_mut().zip(counts) {
            *sum += count;
        }
        let all_arrive = counts[End::Arrived as usize] == counts.iter().sum::<u64>();
        if !all_arrive && self.arrival.first_lost.is_none() {
            self.arrival.first_lost = self.first_lost(column);
        }
    }

    /// The route to a LID from the least source of those that do not arrive.
    fn first_lost(&self, column: &Column) -> Option<Lost> {
        let target = Hop::to(column.owner);
        let senders = self.sources.senders();
        senders.iter().filter(|sender| sender.owner != column.owner).find_map(|sender| {
            let (end, switch) = end_of_route(&self.hops, sender.switch, target);
            let lost = Lost { lid: column.lid, source: sender.guid, switch, end };
            (end != End::Arrived).then_some(lost)
        })
    }
}

/// How the route from a switch ends, and at which switch: if it goes round, the least there.
fn end_of_route(hops: &[Hop], start: usize, target: Hop) -> (End, usize) {
    let mut switch = start;
    for _ in 0..=hops.len() {
        if hops[switch].is_end() {
            return (hops[switch].end(target), switch);
        }
        switch = hops[switch].switch();
    }
    let mut least = switch;
    for _ in 0..hops.len() {
        switch = hops[switch].switch();
        least = least.min(switch);
    }
    (End::Loop, least)
}
