//! The network in one process: clock, links, wires, switches, tables in use and packets; which events may come, and
//! what they do.

use crate::frame::blocks_of;
use crate::life::{End, Life};
use crate::port::{Sample, State};
use crate::ports::PLACES;
use crate::script::{Event, Script};
use crate::switch::{Output, Switch};
use crate::table::InUse;
use crate::wiring::Far;
use std::collections::{BTreeMap, VecDeque};

/// What an event did, for the report; switches and hosts by their places.
pub enum Line {
    Port { switch: usize, port: u8, state: State, peer: Option<End> },
    NoFrame { switch: usize, port: u8 },
    Join { switch: usize, epoch: u64 },
    Spent { switch: usize },
    Finish { switch: usize, epoch: u64, root: Life, members: usize },
    Lost { switch: usize, port: u8, why: Loss },
    Load { switch: usize },
    Fail { switch: usize, port: u8, dropped: usize },
    Repair { switch: usize, port: u8 },
    Packet { packet: u32, from: usize, to: usize, address: u16 },
    Unsent { packet: u32, from: usize, to: usize, cause: &'static str },
    Moved { packet: u32, switch: usize, epoch: u64, entry: u8, port: u8, delivered: Option<usize> },
    Fell { packet: u32, switch: usize, cause: &'static str },
    Restart { switch: usize },
}

/// Why a frame is lost.
pub enum Loss {
    Down,
    Told,
    Room { need: u64, free: u64 },
}

/// How a history ends.
#[derive(Clone, Copy, PartialEq, Eq)]
pub enum Outcome {
    Spent(usize),
    Settled,
    Full,
    Unsettled,
}

/// What a switch has taken and not handled.
enum Hand {
    Empty,
    Clock([Sample; PLACES]),
    Frame(u8, Vec<u8>),
}

/// One direction of a link, with its told counts.
#[derive(Clone, Default)]
struct Wire {
    frames: VecDeque<Vec<u8>>,
    lose: u32,
    again: u32,
    swap: u32,
}

struct Packet {
    to: usize,
    at: usize,
    entry: u8,
    address: u16,
}

pub struct World<'a> {
    pub script: &'a Script,
    pub now: u64,
    /// How many events came.
    pub length: u64,
    since_tick: u64,
    /// How many commands are done.
    done: usize,
    is_up: Vec<[bool; PLACES]>,
    /// The wires out of each port.
    wires: Vec<[Wire; PLACES]>,
    free_blocks: u64,
    pub switches: Vec<Switch>,
    hands: Vec<Hand>,
    next_clocks: Vec<u64>,
    pub tables: Vec<Option<InUse>>,
    under_way: BTreeMap<u32, Packet>,
    packets: u32,
    spent: Option<usize>,
    full_hands: usize,
    frames: usize,
    clocks_due: usize,
    loads_due: usize,
    busy: usize,
    /// What the last event did.
    pub lines: Vec<Line>,
}

impl<'a> World<'a> {
    pub fn new(script: &'a Script) -> World<'a> {
        let wiring = &script.wiring;
        let count = wiring.switches.len();
        let is_up = (0..count)
            .map(|switch| std::array::from_fn(|port| wiring.far(switch, port as u8) != Far::Nothing))
            .collect();
        World {
            script,
            now: 0,
            length: 0,
            since_tick: 0,
            done: 0,
            is_up,
            wires: vec![Default::default(); count],
            free_blocks: script.limit_blocks.unwrap_or(65_536),
            switches: (0..count).map(|switch| first(script, switch, 1)).collect(),
            hands: (0..count).map(|_| Hand::Empty).collect(),
            next_clocks: vec![0; count],
            tables: (0..count).map(|_| None).collect(),
            under_way: BTreeMap::new(),
            packets: 0,
            spent: None,
            full_hands: 0,
            frames: 0,
            clocks_due: count,
            loads_due: 0,
            busy: 0,
            lines: Vec::new(),
        }
    }

    // What there is.

    fn is_up(&self, switch: usize, port: u8) -> bool {
        self.is_up[switch][usize::from(port)]
    }

    fn far_switch(&self, switch: usize, port: u8) -> Option<(usize, u8)> {
        match self.script.wiring.far(switch, port) {
            Far::Switch(other, far_port) => Some((other, far_port)),
            _ => None,
        }
    }

    fn wire(&mut self, switch: usize, port: u8) -> &mut Wire {
        &mut self.wires[switch][usize::from(port)]
    }

    /// Whether the wire into a port has a frame.
    pub fn has_frame(&self, switch: usize, port: u8) -> bool {
        self.far_switch(switch, port)
            .is_some_and(|(other, far)| !self.wires[other][usize::from(far)].frames.is_empty())
    }

    pub fn is_hand_full(&self, switch: usize) -> bool {
        !matches!(self.hands[switch], Hand::Empty)
    }

    pub fn is_clock_due(&self, switch: usize) -> bool {
        self.next_clocks[switch] <= self.now
    }

    pub fn command_due(&self) -> Option<Event> {
        let command = self.script.commands.get(self.done)?;
        (command.time <= self.now).then_some(command.event)
    }

    pub fn first_packet(&self) -> Option<u32> {
        self.under_way.keys().next().copied()
    }

    fn has_room(&self) -> bool {
        self.length + self.full_hands as u64 + 2 <= self.script.limit_events.unwrap_or(2_000_000)
    }

    /// Whether nothing but `handle` may come.
    pub fn is_barred(&self) -> bool {
        self.spent.is_some() || !self.has_room()
    }

    fn limit_ticks(&self) -> u64 {
        self.script.limit_ticks.unwrap_or(4_096)
    }

    fn is_work_left(&self) -> bool {
        !self.under_way.is_empty() || self.loads_due > 0 || self.clocks_due > 0 || self.frames > 0
    }

    /// The end that has come.
    pub fn outcome(&self) -> Option<Outcome> {
        if self.full_hands > 0 {
            None
        } else if let Some(switch) = self.spent {
            Some(Outcome::Spent(switch))
        } else if self.is_settled() {
            Some(Outcome::Settled)
        } else if !self.has_room() {
            Some(Outcome::Full)
        } else if self.now == self.limit_ticks() && self.command_due().is_none() && !self.is_work_left() {
            Some(Outcome::Unsettled)
        } else {
            None
        }
    }

    fn is_settled(&self) -> bool {
        self.done == self.script.commands.len() && self.busy == 0 && !self.is_work_left() && self.agrees()
    }

    /// Whether each link agrees with what its ends show.
    fn agrees(&self) -> bool {
        let wiring = &self.script.wiring;
        let links_agree = wiring.links.iter().all(|link| {
            let (a, b) = (self.switches[link.a].port(link.a_port), self.switches[link.b].port(link.b_port));
            if !self.is_up(link.a, link.a_port) {
                a.state == State::Dead && b.state == State::Dead
            } else if link.a == link.b {
                a.state == State::Loop && b.state == State::Loop
            } else {
                a.good_peer() == Some(self.switches[link.b].end(link.b_port))
                    && b.good_peer() == Some(self.switches[link.a].end(link.a_port))
            }
        });
        links_agree
            && wiring.hosts.iter().all(|host| {
                let wanted = if self.is_up(host.switch, host.port) { State::Host } else { State::Dead };
                self.switches[host.switch].port(host.port).state == wanted
            })
    }

    // Which events may come.

    pub fn is_lawful(&self, event: Event) -> bool {
        (matches!(event, Event::Handle(_)) || !self.is_barred())
            && self.is_due(event)
            && self.outcome().is_none()
    }

    fn is_due(&self, event: Event) -> bool {
        match event {
            Event::Tick => self.is_tick_due(),
            Event::Move(packet) => self.under_way.contains_key(&packet),
            Event::Handle(switch) => self.is_hand_full(switch),
            Event::Clock(switch) => !self.is_hand_full(switch) && self.is_clock_due(switch),
            Event::Load(switch) => !self.is_hand_full(switch) && self.switches[switch].load_due,
            Event::Take(switch, port) => {
                !self.is_hand_full(switch) && !self.is_clock_due(switch) && self.has_frame(switch, port)
            }
            Event::Restart(switch) => self.command_due() == Some(event) && !self.is_hand_full(switch),
            _ => self.command_due() == Some(event),
        }
    }

    pub fn is_tick_due(&self) -> bool {
        self.command_due().is_none()
            && self.under_way.is_empty()
            && self.full_hands == 0
            && self.clocks_due == 0
            && self.now < self.limit_ticks()
            && (self.frames == 0 && self.loads_due == 0
                || self.script.pace.is_some_and(|pace| self.since_tick >= pace))
    }

    // What events do.

    /// A lawful event.
    pub fn step(&mut self, event: Event) {
        self.lines.clear();
        match event {
            Event::Tick => self.tick(),
            Event::Clock(switch) => self.clock(switch),
            Event::Take(switch, port) => self.take(switch, port),
            Event::Handle(switch) => self.handle(switch),
            Event::Load(switch) => self.load(switch),
            Event::Move(packet) => self.hop(packet),
            _ => {
                self.command(event);
                self.done += 1;
            }
        }
        self.since_tick = if event == Event::Tick { 0 } else { self.since_tick + 1 };
        self.length += 1;
    }

    fn command(&mut self, event: Event) {
        match event {
            Event::Fail(switch, port) => self.fail(switch, port),
            Event::Repair(switch, port) => {
                self.set_link(switch, port, true);
                self.lines.push(Line::Repair { switch, port });
            }
            Event::Lose(switch, port, count) => add(&mut self.wire(switch, port).lose, count),
            Event::Again(switch, port, count) => add(&mut self.wire(switch, port).again, count),
            Event::Swap(switch, port, count) => add(&mut self.wire(switch, port).swap, count),
            Event::Noise(switch, port, count) => self.put(switch, port, vec![0; count as usize]),
            Event::Send(from, to) => self.send(from, to),
            Event::Restart(switch) => self.restart(switch),
            _ => {}
        }
    }

    /// At a tick no clock is due, so each switch had one in the tick before.
    fn tick(&mut self) {
        self.now += 1;
        self.clocks_due = self.switches.len();
    }

    fn clock(&mut self, switch: usize) {
        let wiring = &self.script.wiring;
        let samples = std::array::from_fn(|port| match wiring.far(switch, port as u8) {
            _ if !self.is_up(switch, port as u8) => Sample::Down,
            Far::Host(_) => Sample::Host,
            _ => Sample::Switch,
        });
        self.fill(switch, Hand::Clock(samples));
        self.next_clocks[switch] = self.now + 1;
        self.clocks_due -= 1;
    }

    fn fill(&mut self, switch: usize, hand: Hand) {
        self.hands[switch] = hand;
        self.full_hands += 1;
    }

    fn take(&mut self, switch: usize, port: u8) {
        let Some((other, far)) = self.far_switch(switch, port) else {
            return;
        };
        let wire = self.wire(other, far);
        let is_exchanged = wire.swap > 0 && wire.frames.len() >= 2;
        wire.swap -= u32::from(is_exchanged);
        let Some(frame) = wire.frames.remove(usize::from(is_exchanged)) else {
            return;
        };
        let copy = (wire.again > 0).then(|| frame.clone());
        wire.again -= u32::from(copy.is_some());
        self.frames -= 1;
        self.fill(switch, Hand::Frame(port, frame));
        if let Some(copy) = copy {
            self.put(other, far, copy);
        }
    }

    /// Puts a frame on the wire out of a port, if it is not lost.
    fn put(&mut self, switch: usize, port: u8, frame: Vec<u8>) {
        let (need, free, is_up) = (blocks_of(&frame), self.free_blocks, self.is_up(switch, port));
        let wire = self.wire(switch, port);
        let why = if !is_up {
            Loss::Down
        } else if wire.lose > 0 {
            wire.lose -= 1;
            Loss::Told
        } else if free < need {
            Loss::Room { need, free }
        } else {
            wire.frames.push_back(frame);
            self.frames += 1;
            self.free_blocks -= need;
            return;
        };
        self.lines.push(Line::Lost { switch, port, why });
    }

    fn handle(&mut self, switch: usize) {
        let now = self.now;
        self.full_hands -= 1;
        let mut by = 0;
        let out = match std::mem::replace(&mut self.hands[switch], Hand::Empty) {
            Hand::Empty => return,
            Hand::Clock(samples) => self.change(switch, |it| it.clock(now, &samples)),
            Hand::Frame(port, frame) => {
                by = port;
                self.free_blocks += blocks_of(&frame);
                self.change(switch, |it| it.frame(now, port, &frame))
            }
        };
        self.tell(switch, by, &out);
        if out.joined.is_some() {
            self.tables[switch] = None;
        }
        if out.is_spent {
            self.spent = Some(self.spent.map_or(switch, |first| first.min(switch)));
        }
        for (port, frame) in out.frames {
            self.put(switch, port, frame);
        }
    }

    /// Has a switch do something, and counts whether it is busy and a load is due there.
    fn change<T>(&mut self, switch: usize, act: impl FnOnce(&mut Switch) -> T) -> T {
        let it = &mut self.switches[switch];
        self.busy -= usize::from(it.is_busy());
        self.loads_due -= usize::from(it.load_due);
        let done = act(it);
        self.busy += usize::from(it.is_busy());
        self.loads_due += usize::from(it.load_due);
        done
    }

    /// The lines of what a switch did with what came in by a port.
    fn tell(&mut self, switch: usize, by: u8, out: &Output) {
        let it = &self.switches[switch];
        let lines = &mut self.lines;
        lines.extend(out.changed.into_iter().map(|number| {
            let port = it.port(number);
            Line::Port { switch, port: number, state: port.state, peer: port.good_peer() }
        }));
        if out.is_no_frame {
            lines.push(Line::NoFrame { switch, port: by });
        }
        if let Some(epoch) = out.joined {
            lines.push(Line::Join { switch, epoch });
        }
        if out.is_spent {
            lines.push(Line::Spent { switch });
        }
        if let Some(topology) = it.finish().filter(|_| out.has_finished) {
            let root = topology.entries[0].position.root;
            lines.push(Line::Finish {
                switch,
                epoch: it.epoch_number,
                root,
                members: topology.entries.len(),
            });
        }
    }

    fn load(&mut self, switch: usize) {
        if let Some(topology) = self.change(switch, Switch::load) {
            let it = &self.switches[switch];
            self.tables[switch] =
                Some(InUse::new(&topology, it.life, it.epoch_number, self.script.any_routes));
            self.lines.push(Line::Load { switch });
        }
    }

    fn set_link(&mut self, switch: usize, port: u8, is_up: bool) {
        self.is_up[switch][usize::from(port)] = is_up;
        if let Some((other, far)) = self.far_switch(switch, port) {
            self.is_up[other][usize::from(far)] = is_up;
        }
    }

    fn fail(&mut self, switch: usize, port: u8) {
        self.set_link(switch, port, false);
        let mut dropped = 0;
        if let Some((other, far)) = self.far_switch(switch, port) {
            for (from, out) in [(switch, port), (other, far)] {
                let frames = std::mem::take(&mut self.wire(from, out).frames);
                self.free_blocks += frames.iter().map(|frame| blocks_of(frame)).sum::<u64>();
                dropped += frames.len();
            }
        }
        self.frames -= dropped;
        self.lines.push(Line::Fail { switch, port, dropped });
    }

    fn restart(&mut self, switch: usize) {
        let boot = self.switches[switch].life.boot + 1;
        let next = first(self.script, switch, boot);
        self.change(switch, |it| *it = next);
        self.tables[switch] = None;
        self.clocks_due += usize::from(!self.is_clock_due(switch));
        self.next_clocks[switch] = self.now;
        self.lines.push(Line::Restart { switch });
    }

    fn send(&mut self, from: usize, to: usize) {
        self.packets += 1;
        let packet = self.packets;
        let (sender, receiver) = (&self.script.wiring.hosts[from], &self.script.wiring.hosts[to]);
        let cause = if self.reachable_host(sender.switch, sender.port).is_none() {
            "no-port"
        } else if let Some(table) = &self.tables[receiver.switch] {
            let address = u16::from(table.number) * 16 + u16::from(receiver.port);
            self.under_way.insert(packet, Packet { to, at: sender.switch, entry: sender.port, address });
            self.lines.push(Line::Packet { packet, from, to, address });
            return;
        } else {
            "no-table"
        };
        self.lines.push(Line::Unsent { packet, from, to, cause });
    }

    /// The host at a port, where its link is up and the port shows a host.
    fn reachable_host(&self, switch: usize, port: u8) -> Option<usize> {
        match self.script.wiring.far(switch, port) {
            Far::Host(host)
                if self.is_up(switch, port) && self.switches[switch].port(port).state == State::Host =>
            {
                Some(host)
            }
            _ => None,
        }
    }

    fn hop(&mut self, number: u32) {
        let Some(packet) = self.under_way.get(&number) else {
            return;
        };
        let (switch, entry) = (packet.at, packet.entry);
        match self.next_hop(packet) {
            Err(cause) => {
                self.under_way.remove(&number);
                self.lines.push(Line::Fell { packet: number, switch, cause });
            }
            Ok((epoch, port, delivered)) => {
                if delivered.is_some() {
                    self.under_way.remove(&number);
                } else if let Some((at, entry)) = self.far_switch(switch, port) {
                    if let Some(packet) = self.under_way.get_mut(&number) {
                        (packet.at, packet.entry) = (at, entry);
                    }
                }
                self.lines.push(Line::Moved { packet: number, switch, epoch, entry, port, delivered });
            }
        }
    }

    /// The epoch of the table, the exit and the host that gets the packet, or why it is dropped.
    fn next_hop(&self, packet: &Packet) -> Result<(u64, u8, Option<usize>), &'static str> {
        let at = packet.at;
        let table = self.tables[at].as_ref().ok_or("no-table")?;
        let (number, port) = ((packet.address / 16) as u8, (packet.address % 16) as u8);
        if number == table.number {
            return match self.reachable_host(at, port) {
                None => Err("no-host"),
                Some(host) if host == packet.to => Ok((table.epoch, port, Some(host))),
                Some(_) => Err("wrong-host"),
            };
        }
        let is_host_port = matches!(self.script.wiring.far(at, packet.entry), Far::Host(_));
        let entry = if is_host_port { 0 } else { packet.entry };
        let port = table.exits(entry, number).first().ok_or("no-exit")?;
        if self.is_up(at, port) {
            Ok((table.epoch, port, None))
        } else {
            Err("link-down")
        }
    }
}

/// A switch as it starts.
fn first(script: &Script, switch: usize, boot: u32) -> Switch {
    let it = &script.wiring.switches[switch];
    Switch::new(Life { uid: it.uid, boot }, script.epoch.unwrap_or(0), it.had)
}

/// Adds to a count, which ends at its greatest value.
fn add(count: &mut u32, more: u32) {
    *count = count.saturating_add(more);
}
