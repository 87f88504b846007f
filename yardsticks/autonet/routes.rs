//! The graph of a component, and the exits that up*/down* routing takes in it.

use crate::ports::{Ports, PLACES};
use crate::wiring::{Member, Wiring};

/// The switches of a component in the order of their numbers, and the links between them.
pub struct Graph {
    far: Vec<[Option<(usize, u8)>; PLACES]>,
    links: Vec<Ports>,
    /// The ports by which one goes upward.
    up: Vec<Ports>,
    /// The switches, each behind all that are above it.
    from_above: Vec<usize>,
}

impl Graph {
    /// The graph of switches with these heights, of which the least is the uppermost, and far ends.
    pub fn new<H: Ord>(heights: &[H], far: Vec<[Option<(usize, u8)>; PLACES]>) -> Graph {
        let mut from_above: Vec<usize> = (0..heights.len()).collect();
        from_above.sort_unstable_by_key(|&at| &heights[at]);
        let ports_where = |is: &dyn Fn(usize, usize) -> bool| -> Vec<Ports> {
            far.iter()
                .enumerate()
                .map(|(at, ends)| {
                    let mut ports = Ports::default();
                    for port in 1..=12 {
                        if ends[usize::from(port)].is_some_and(|(other, _)| is(at, other)) {
                            ports.insert(port);
                        }
                    }
                    ports
                })
                .collect()
        };
        let links = ports_where(&|_, _| true);
        let up = ports_where(&|at, other| heights[other] < heights[at]);
        Graph { far, links, up, from_above }
    }

    /// The graph of the members of a component with these numbers.
    pub fn of_component(wiring: &Wiring, members: &[Member], numbers: &[u8]) -> (Graph, Vec<Node>) {
        let mut nodes: Vec<Node> = members
            .iter()
            .zip(numbers)
            .map(|(member, &number)| Node { number, switch: member.switch, level: member.level })
            .collect();
        nodes.sort_unstable_by_key(|node| node.number);
        let mut place = vec![0; wiring.switches.len()];
        for (at, node) in nodes.iter().enumerate() {
            place[node.switch] = at;
        }
        let heights: Vec<_> =
            nodes.iter().map(|node| (node.level, wiring.switches[node.switch].uid)).collect();
        let far = nodes
            .iter()
            .map(|node| {
                let mut ends = [None; PLACES];
                for (port, other, far_port) in wiring.neighbours(node.switch) {
                    ends[usize::from(port)] = Some((place[other], far_port));
                }
                ends
            })
            .collect();
        (Graph::new(&heights, far), nodes)
    }

    pub fn len(&self) -> usize {
        self.far.len()
    }

    /// The switch and port at the other end of a link.
    pub fn far(&self, at: usize, port: u8) -> Option<(usize, u8)> {
        self.far[at][usize::from(port)]
    }

    /// The ports with a link.
    pub fn links(&self, at: usize) -> Ports {
        self.links[at]
    }

    /// The ports by which one goes upward.
    pub fn up(&self, at: usize) -> Ports {
        self.up[at]
    }

    /// Whether what came in at this entry came downward.
    pub fn came_down(&self, at: usize, entry: u8) -> bool {
        self.up[at].contains(entry)
    }
}

/// A switch of a component.
pub struct Node {
    pub number: u8,
    pub switch: usize,
    pub level: usize,
}

/// A length that no route has.
const NEVER: u16 = u16::MAX;

/// The least lengths of legal routes from each switch to each.
pub struct Lengths {
    /// Of those that go downward alone.
    down: Vec<Vec<u16>>,
    /// Of all.
    any: Vec<Vec<u16>>,
}

impl Lengths {
    pub fn of(graph: &Graph) -> Lengths {
        let mut down = vec![Vec::new(); graph.len()];
        for &at in graph.from_above.iter().rev() {
            let mut lengths = vec![NEVER; graph.len()];
            lengths[at] = 0;
            for port in graph.links(at).without(graph.up(at)) {
                shorten(graph, &mut lengths, &down, at, port);
            }
            down[at] = lengths;
        }
        let mut any = vec![Vec::new(); graph.len()];
        for &at in &graph.from_above {
            let mut lengths = down[at].clone();
            for port in graph.up(at) {
                shorten(graph, &mut lengths, &any, at, port);
            }
            any[at] = lengths;
        }
        Lengths { down, any }
    }

    /// The lengths of what is left behind a port.
    fn behind(&self, graph: &Graph, at: usize, port: u8) -> Option<&[u16]> {
        let (other, _) = graph.far(at, port)?;
        Some(if graph.up(at).contains(port) { &self.any[other] } else { &self.down[other] })
    }
}

/// Takes the ways by a port into the lengths from a switch.
fn shorten(graph: &Graph, lengths: &mut [u16], behind: &[Vec<u16>], at: usize, port: u8) {
    if let Some((other, _)) = graph.far(at, port) {
        for (length, rest) in lengths.iter_mut().zip(&behind[other]) {
            *length = (*length).min(rest.saturating_add(1));
        }
    }
}

/// The routing table of one switch.
pub struct Table {
    links: Ports,
    up: Ports,
    /// The exits by target, for what may go upward.
    free: Vec<Ports>,
    /// The exits by target, for what came downward.
    down: Vec<Ports>,
}

impl Table {
    /// The table of one switch of a graph: the exits of least legal routes, or of all legal routes.
    pub fn new(graph: &Graph, lengths: &Lengths, at: usize, any_routes: bool) -> Table {
        let rows = |ports: Ports, least: &[u16]| {
            let mut rows = vec![Ports::default(); graph.len()];
            for port in ports {
                let behind = lengths.behind(graph, at, port).unwrap_or(&[]);
                for ((row, &rest), &least) in rows.iter_mut().zip(behind).zip(least) {
                    if rest != NEVER && (any_routes || rest + 1 == least) {
                        row.insert(port);
                    }
                }
            }
            rows[at] = Ports::default();
            rows
        };
        let (links, up) = (graph.links(at), graph.up(at));
        Table {
            links,
            up,
            free: rows(links, &lengths.any[at]),
            down: rows(links.without(up), &lengths.down[at]),
        }
    }

    /// The tables of all switches of a graph.
    pub fn all(graph: &Graph, any_routes: bool) -> Vec<Table> {
        let lengths = Lengths::of(graph);
        (0..graph.len()).map(|at| Table::new(graph, &lengths, at, any_routes)).collect()
    }

    /// The entries: 0 for the switch itself, and the ports with a link.
    pub fn entries(&self) -> impl Iterator<Item = u8> {
        std::iter::once(0).chain(self.links)
    }

    pub fn has_entry(&self, entry: u8) -> bool {
        entry == 0 || self.links.contains(entry)
    }

    /// Whether what comes in at an entry came downward.
    pub fn came_down(&self, entry: u8) -> bool {
        self.up.contains(entry)
    }

    /// The exits by target, for what came downward or for what may go upward.
    pub fn rows(&self, came_down: bool) -> &[Ports] {
        if came_down {
            &self.down
        } else {
            &self.free
        }
    }
}
