//! `flow B`: packets in channels that hold B packets each.

use crate::ports::{Ports, PLACES};
use crate::routes::{Graph, Node, Table};
use crate::script::{Event, Script};
use crate::text::push_number;
use crate::wiring::{components, numbers};
use std::collections::{BTreeSet, VecDeque};

/// What becomes of the packets of a script.
pub fn flow_text(script: &Script, room: usize) -> Vec<u8> {
    let wiring = &script.wiring;
    let mut place = vec![(0, 0); wiring.switches.len()];
    let mut flows = Vec::new();
    for members in components(wiring) {
        let proposed: Vec<u8> = members.iter().map(|member| wiring.switches[member.switch].had).collect();
        let (graph, nodes) = Graph::of_component(wiring, &members, &numbers(&proposed));
        for (at, node) in nodes.iter().enumerate() {
            place[node.switch] = (flows.len(), at);
        }
        flows.push(Flow::new(graph, nodes, script.any_routes, room));
    }
    let mut out = Vec::new();
    let (mut local, mut unjoined) = (0, 0);
    let sends = script.commands.iter().filter_map(|command| match command.event {
        Event::Send(from, to) => Some((wiring.hosts[from].switch, wiring.hosts[to].switch)),
        _ => None,
    });
    for (number, (from, to)) in (1..).zip(sends) {
        let ((flow, source), (other, target)) = (place[from], place[to]);
        if from == to {
            local += 1;
            push_line(&mut out, "local ", number, Some(&wiring.switches[from].name), None);
        } else if flow != other {
            unjoined += 1;
            push_line(&mut out, "unjoined ", number, None, None);
        } else {
            flows[flow].enter(number, source, target);
        }
    }
    let (mut moves, mut arrived) = (0, 0);
    for flow in &mut flows {
        while let Some(turn) = flow.turn() {
            match turn {
                Turn::Arrive(number, at) => {
                    arrived += 1;
                    push_line(&mut out, "arrive ", number, Some(&wiring.switches[at].name), None);
                }
                Turn::Move(number, at, port) => {
                    moves += 1;
                    push_line(&mut out, "move ", number, Some(&wiring.switches[at].name), Some(port));
                }
            }
        }
    }
    for (word, count) in
        [("end moves ", moves), (" arrived ", arrived), (" local ", local), (" unjoined ", unjoined)]
    {
        out.extend_from_slice(word.as_bytes());
        push_number(&mut out, count);
    }
    out.push(b'\n');
    out
}

/// Writes a line of one packet.
fn push_line(out: &mut Vec<u8>, word: &str, number: u32, name: Option<&str>, port: Option<u8>) {
    out.extend_from_slice(word.as_bytes());
    push_number(out, u64::from(number));
    if let Some(name) = name {
        out.push(b' ');
        out.extend_from_slice(name.as_bytes());
    }
    if let Some(port) = port {
        out.extend_from_slice(b" out ");
        push_number(out, u64::from(port));
    }
    out.push(b'\n');
}

/// What happens next to one packet, at a switch of the wiring.
enum Turn {
    Arrive(u32, usize),
    Move(u32, usize, u8),
}

/// A packet that has entered.
struct Packet {
    number: u32,
    target: usize,
    /// The channel that holds it, where it is in one.
    channel: Option<(usize, u8)>,
    /// The ticket of its request, 0 where it has none.
    ticket: u32,
}

/// A request, which waits at each port that it names, and is void where its packet has another ticket.
struct Request {
    ticket: u32,
    packet: usize,
}

/// A port with a link: the channel behind it, and who asks for it.
#[derive(Default)]
struct Exit {
    channel: VecDeque<usize>,
    requests: VecDeque<Request>,
}

/// The packets of one component.
struct Flow {
    graph: Graph,
    nodes: Vec<Node>,
    tables: Vec<Table>,
    room: usize,
    exits: Vec<[Exit; PLACES]>,
    packets: Vec<Packet>,
    tickets: u32,
    /// The channels whose first packet is at its target.
    arriving: BTreeSet<(usize, u8)>,
    /// One bit for each switch at which somebody may be able to go.
    awake: u128,
}

impl Flow {
    fn new(graph: Graph, nodes: Vec<Node>, any_routes: bool, room: usize) -> Flow {
        Flow {
            tables: Table::all(&graph, any_routes),
            exits: nodes.iter().map(|_| Default::default()).collect(),
            graph,
            nodes,
            room,
            packets: Vec::new(),
            tickets: 0,
            arriving: BTreeSet::new(),
            awake: 0,
        }
    }

    fn exit(&mut self, at: usize, port: u8) -> &mut Exit {
        &mut self.exits[at][usize::from(port)]
    }

    /// A packet asks where it starts.
    fn enter(&mut self, number: u32, source: usize, target: usize) {
        self.packets.push(Packet { number, target, channel: None, ticket: 0 });
        self.ask(self.packets.len() - 1, source, 0);
    }

    fn ask(&mut self, packet: usize, at: usize, entry: u8) {
        self.tickets += 1;
        let ticket = self.tickets;
        self.packets[packet].ticket = ticket;
        for port in self.exits_of(packet, at, entry) {
            self.exit(at, port).requests.push_back(Request { ticket, packet });
        }
        self.awake |= 1 << at;
    }

    fn exits_of(&self, packet: usize, at: usize, entry: u8) -> Ports {
        let table = &self.tables[at];
        table.rows(table.came_down(entry))[self.packets[packet].target]
    }

    /// An arrival, or else a move, or else nothing is left.
    fn turn(&mut self) -> Option<Turn> {
        if let Some((from, port)) = self.arriving.pop_first() {
            let packet = self.leave(from, port)?;
            let Packet { number, target, .. } = self.packets[packet];
            return Some(Turn::Arrive(number, self.nodes[target].switch));
        }
        while self.awake != 0 {
            let at = self.awake.trailing_zeros() as usize;
            if let Some((packet, port)) = self.grant(at) {
                self.go(packet, at, port);
                return Some(Turn::Move(self.packets[packet].number, self.nodes[at].switch, port));
            }
            self.awake &= !(1 << at);
        }
        None
    }

    /// The oldest request at a switch that names a port with room, with the lowest such port.
    fn grant(&mut self, at: usize) -> Option<(usize, u8)> {
        let mut oldest: Option<(u32, usize, u8)> = None;
        for port in self.graph.links(at) {
            let exit = &mut self.exits[at][usize::from(port)];
            if exit.channel.len() == self.room {
                continue;
            }
            while let Some(&Request { ticket, packet }) = exit.requests.front() {
                if self.packets[packet].ticket == ticket {
                    if oldest.is_none_or(|(least, ..)| ticket < least) {
                        oldest = Some((ticket, packet, port));
                    }
                    break;
                }
                exit.requests.pop_front();
            }
        }
        oldest.map(|(_, packet, port)| (packet, port))
    }

    /// The packet goes out by the port.
    fn go(&mut self, packet: usize, at: usize, port: u8) {
        self.packets[packet].ticket = 0;
        if let Some((from, out)) = self.packets[packet].channel.replace((at, port)) {
            self.leave(from, out);
        }
        self.exit(at, port).channel.push_back(packet);
        if self.exit(at, port).channel.len() == 1 {
            self.is_first(packet, at, port);
        }
    }

    /// The first packet leaves its channel, and the next one is first.
    fn leave(&mut self, from: usize, port: u8) -> Option<usize> {
        let left = self.exit(from, port).channel.pop_front();
        self.awake |= 1 << from;
        if let Some(&next) = self.exit(from, port).channel.front() {
            self.is_first(next, from, port);
        }
        left
    }

    /// A packet that has become the first of a channel is to arrive, or asks.
    fn is_first(&mut self, packet: usize, from: usize, port: u8) {
        if let Some((at, entry)) = self.graph.far(from, port) {
            if at == self.packets[packet].target {
                self.arriving.insert((from, port));
            } else {
                self.ask(packet, at, entry);
            }
        }
    }
}
