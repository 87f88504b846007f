//! `check`: whether tables close no cycle of channels, join each pair, and take legal exits alone.

use crate::ports::{Ports, PLACES};
use crate::routes::{Graph, Node};
use crate::tables::{Judged, Tables};
use crate::text::push_number;
use std::collections::VecDeque;

/// A switch and an exit port with a link.
type Channel = (usize, u8);

/// The ranks of the channels, or the line that says why tables are refused.
pub fn check_text(judged: &Judged) -> Result<Vec<u8>, String> {
    let wiring = &judged.script.wiring;
    let mut out = Vec::new();
    for members in &judged.components {
        let numbers: Vec<u8> = members.iter().map(|member| judged.tables.number(member.switch)).collect();
        let (graph, nodes) = Graph::of_component(wiring, members, &numbers);
        let checker = Checker::new(&graph, &nodes, &judged.tables);
        let name = |at: usize| wiring.switches[nodes[at].switch].name.as_str();
        let ranks = checker.ranks().map_err(|refused| refused.line(&name))?;
        for (at, ranks) in ranks.iter().enumerate() {
            for port in graph.links(at) {
                out.extend_from_slice(b"rank ");
                out.extend_from_slice(name(at).as_bytes());
                out.push(b' ');
                push_number(&mut out, u64::from(port));
                out.push(b' ');
                push_number(&mut out, u64::from(ranks[usize::from(port)]));
                out.push(b'\n');
            }
        }
    }
    out.extend_from_slice(b"ok\n");
    Ok(out)
}

/// Why tables are refused.
enum Refused {
    Cycle(Vec<Channel>),
    Pair { from: usize, to: usize, at: usize, entry: u8 },
    Exit { at: usize, entry: u8, to: usize, port: u8 },
}

impl Refused {
    fn line<'a>(&self, name: &impl Fn(usize) -> &'a str) -> String {
        match *self {
            Refused::Cycle(ref channels) => {
                let mut line = String::from("refused cycle");
                for &(at, port) in channels {
                    line += &format!(" {}:{port}", name(at));
                }
                line
            }
            Refused::Pair { from, to, at, entry } => {
                format!("refused pair {} to {} at {} entry {entry}", name(from), name(to), name(at))
            }
            Refused::Exit { at, entry, to, port } => {
                format!("refused exit {} entry {entry} to {to} by {port}", name(at))
            }
        }
    }
}

/// The tables of one component.
struct Checker<'a> {
    graph: &'a Graph,
    nodes: &'a [Node],
    tables: &'a Tables,
    /// By switch and entry, the exits of all rows that have a link.
    turns: Vec<[Ports; PLACES]>,
}

impl<'a> Checker<'a> {
    fn new(graph: &'a Graph, nodes: &'a [Node], tables: &'a Tables) -> Checker<'a> {
        let turns = nodes
            .iter()
            .enumerate()
            .map(|(at, node)| {
                let mut turns = [Ports::default(); PLACES];
                for entry in graph.links(at) {
                    let rows = tables.rows(node.switch, entry).iter();
                    let exits = rows.fold(Ports::default(), |all, &exits| all.union(exits));
                    turns[usize::from(entry)] = exits.common(graph.links(at));
                }
                turns
            })
            .collect();
        Checker { graph, nodes, tables, turns }
    }

    fn ranks(&self) -> Result<Vec<[u32; PLACES]>, Refused> {
        let (ranks, rising) = self.ranked();
        if rising.len() < self.channels().count() {
            return Err(Refused::Cycle(self.cycle()));
        }
        match self.not_joined(&rising).or_else(|| self.illegal_exit()) {
            Some(refused) => Err(refused),
            None => Ok(ranks),
        }
    }

    /// The channels, rising.
    fn channels(&self) -> impl Iterator<Item = Channel> + '_ {
        (0..self.graph.len()).flat_map(|at| self.graph.links(at).into_iter().map(move |port| (at, port)))
    }

    /// The switch and entry at which a channel arrives.
    fn arrival(&self, (at, port): Channel) -> (usize, u8) {
        self.graph.far(at, port).expect("a channel has a link")
    }

    /// The channels to which a channel leads, rising.
    fn next(&self, channel: Channel) -> impl Iterator<Item = Channel> {
        let (at, entry) = self.arrival(channel);
        self.turns[at][usize::from(entry)].into_iter().map(move |port| (at, port))
    }

    /// The channels that lead to a channel.
    fn before(&self, (at, port): Channel) -> impl Iterator<Item = Channel> + '_ {
        let entries = self.graph.links(at).into_iter();
        entries
            .filter(move |&entry| self.turns[at][usize::from(entry)].contains(port))
            .map(move |entry| self.arrival((at, entry)))
    }

    /// The ranks of the channels that lead to no cycle, and these channels, each behind those to which it leads.
    fn ranked(&self) -> (Vec<[u32; PLACES]>, Vec<Channel>) {
        let mut ranks = vec![[0; PLACES]; self.graph.len()];
        let mut left = vec![[0; PLACES]; self.graph.len()];
        let mut rising = Vec::new();
        for channel @ (at, port) in self.channels() {
            left[at][usize::from(port)] = self.next(channel).count();
            if left[at][usize::from(port)] == 0 {
                rising.push(channel);
            }
        }
        let mut done = 0;
        while let Some(&channel @ (at, port)) = rising.get(done) {
            done += 1;
            let above = ranks[at][usize::from(port)] + 1;
            for before @ (at, port) in self.before(channel) {
                let rank = &mut ranks[at][usize::from(port)];
                *rank = above.max(*rank);
                left[at][usize::from(port)] -= 1;
                if left[at][usize::from(port)] == 0 {
                    rising.push(before);
                }
            }
        }
        (ranks, rising)
    }

    /// The least of the shortest cycles from the least channel that is on any.
    fn cycle(&self) -> Vec<Channel> {
        let start = Rounds::of(self).least.expect("some channel is on a cycle");
        let steps = self.steps_to(start);
        let steps_of = |(at, port): Channel| steps[at][usize::from(port)];
        let mut cycle = vec![start];
        let mut last = start;
        for left in (1..steps_of(start).unwrap_or(0)).rev() {
            last =
                self.next(last).find(|&next| steps_of(next) == Some(left)).expect("a way back to the start");
            cycle.push(last);
        }
        cycle
    }

    /// From each channel, the least number of steps to the target, at least one.
    fn steps_to(&self, target: Channel) -> Vec<[Option<u32>; PLACES]> {
        let mut steps = vec![[None; PLACES]; self.graph.len()];
        let mut ring = VecDeque::from([(target, 0)]);
        while let Some((channel, count)) = ring.pop_front() {
            for before @ (at, port) in self.before(channel) {
                let steps = &mut steps[at][usize::from(port)];
                if steps.is_none() {
                    *steps = Some(count + 1);
                    ring.push_back((before, count + 1));
                }
            }
        }
        steps
    }

    fn exits(&self, at: usize, entry: u8, to: usize) -> Ports {
        self.tables.rows(self.nodes[at].switch, entry)[usize::from(self.nodes[to].number)]
    }

    /// Whether a row has no exits, or one without a link.
    fn is_gap(&self, at: usize, exits: Ports) -> bool {
        exits.is_empty() || !exits.without(self.graph.links(at)).is_empty()
    }

    /// The least pair that is not joined, with its least gap. Of the channels each is behind those to which it leads.
    fn not_joined(&self, rising: &[Channel]) -> Option<Refused> {
        let mut least: Option<(usize, usize)> = None;
        let mut stuck = vec![Ports::default(); self.graph.len()];
        for to in 0..self.graph.len() {
            stuck.fill(Ports::default());
            for &channel in rising {
                let (at, entry) = self.arrival(channel);
                if at != to && self.gets_stuck(at, entry, to, &stuck) {
                    stuck[at].insert(entry);
                }
            }
            let sources = 0..least.map_or(self.graph.len(), |(from, _)| from);
            if let Some(from) =
                sources.into_iter().find(|&from| from != to && self.gets_stuck(from, 0, to, &stuck))
            {
                least = Some((from, to));
            }
        }
        least.map(|(from, to)| {
            let (at, entry) = self.gap(from, to);
            Refused::Pair { from, to, at, entry }
        })
    }

    /// Whether some following of the rows from here comes to a gap, where this is known for the arrivals of all exits.
    fn gets_stuck(&self, at: usize, entry: u8, to: usize, stuck: &[Ports]) -> bool {
        let exits = self.exits(at, entry, to);
        self.is_gap(at, exits)
            || exits.into_iter().any(|port| {
                let (next, entry) = self.arrival((at, port));
                stuck[next].contains(entry)
            })
    }

    /// The least gap that followings of the rows from one switch to another come to.
    fn gap(&self, from: usize, to: usize) -> (usize, u8) {
        let mut met = vec![Ports::default(); self.graph.len()];
        let mut to_do = vec![(from, 0)];
        let mut least: Option<(usize, u8)> = None;
        while let Some(place @ (at, entry)) = to_do.pop() {
            if met[at].contains(entry) {
                continue;
            }
            met[at].insert(entry);
            let exits = self.exits(at, entry, to);
            if self.is_gap(at, exits) {
                least = Some(least.map_or(place, |least| least.min(place)));
            }
            let arrivals = exits.into_iter().filter_map(|port| self.graph.far(at, port));
            to_do.extend(arrivals.filter(|&(at, _)| at != to));
        }
        least.expect("a gap between switches that are not joined")
    }

    /// The least exit without a link, or upward behind a way down.
    fn illegal_exit(&self) -> Option<Refused> {
        for (at, node) in self.nodes.iter().enumerate() {
            for entry in 0..=12 {
                let mut legal = self.graph.links(at);
                if self.graph.came_down(at, entry) {
                    legal = legal.without(self.graph.up(at));
                }
                for (to, exits) in self.tables.rows(node.switch, entry).iter().enumerate() {
                    if let Some(port) = exits.without(legal).first() {
                        return Some(Refused::Exit { at, entry, to, port });
                    }
                }
            }
        }
        None
    }
}

/// Looks for the channels that are on cycles: those that share a strong component (Tarjan's algorithm).
struct Rounds<'a> {
    checker: &'a Checker<'a>,
    /// When each channel was met, from 1.
    met: Vec<[u32; PLACES]>,
    count: u32,
    open: Vec<Channel>,
    is_open: Vec<Ports>,
    least: Option<Channel>,
}

impl<'a> Rounds<'a> {
    fn of(checker: &'a Checker<'a>) -> Rounds<'a> {
        let switches = checker.graph.len();
        let mut rounds = Rounds {
            checker,
            met: vec![[0; PLACES]; switches],
            count: 0,
            open: Vec::new(),
            is_open: vec![Ports::default(); switches],
            least: None,
        };
        for channel @ (at, port) in checker.channels() {
            if rounds.met[at][usize::from(port)] == 0 {
                rounds.visit(channel);
            }
        }
        rounds
    }

    /// Visits a channel and all to which it leads; gives the first met of the open ones among them.
    fn visit(&mut self, channel @ (at, port): Channel) -> u32 {
        self.count += 1;
        let mine = self.count;
        self.met[at][usize::from(port)] = mine;
        self.open.push(channel);
        self.is_open[at].insert(port);
        let mut low = mine;
        let mut leads_to_itself = false;
        for next @ (at, port) in self.checker.next(channel) {
            leads_to_itself |= next == channel;
            if self.met[at][usize::from(port)] == 0 {
                low = low.min(self.visit(next));
            } else if self.is_open[at].contains(port) {
                low = low.min(self.met[at][usize::from(port)]);
            }
        }
        if low == mine {
            self.close(channel, leads_to_itself);
        }
        low
    }

    /// Closes the open channels back to this one, which are one strong component.
    fn close(&mut self, first: Channel, leads_to_itself: bool) {
        let is_cycle = leads_to_itself || self.open.last() != Some(&first);
        while let Some(channel @ (at, port)) = self.open.pop() {
            self.is_open[at].remove(port);
            if is_cycle {
                self.least = Some(self.least.map_or(channel, |least| least.min(channel)));
            }
            if channel == first {
                break;
            }
        }
    }
}
