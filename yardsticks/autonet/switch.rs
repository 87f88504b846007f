//! One switch in one life: what it does with a clock, a frame or a load.

use crate::epoch::{Epoch, Sends};
use crate::frame::{self, Frame};
use crate::life::{Body, End, Life, PortLink, Topology};
use crate::port::{Port, Sample};
use crate::ports::{Ports, PLACES};
use crate::session::{Receiver, Sender};
use std::rc::Rc;

/// What one clock or frame brings forth.
#[derive(Default)]
pub struct Output {
    /// The frames, each with its port.
    pub frames: Vec<(u8, Vec<u8>)>,
    /// The ports whose state has changed.
    pub changed: Ports,
    pub is_no_frame: bool,
    pub joined: Option<u64>,
    pub is_spent: bool,
    pub has_finished: bool,
}

#[derive(Default)]
struct Session {
    sender: Sender,
    receiver: Receiver,
}

pub struct Switch {
    pub life: Life,
    pub epoch_number: u64,
    /// What it does in its epoch, once it has joined that.
    epoch: Option<Epoch>,
    /// The number to propose.
    number: u8,
    ports: [Port; PLACES],
    sessions: [Option<Session>; PLACES],
    pub load_due: bool,
}

impl Switch {
    pub fn new(life: Life, epoch_number: u64, number: u8) -> Switch {
        Switch {
            life,
            epoch_number,
            epoch: None,
            number,
            ports: std::array::from_fn(|_| Port::new()),
            sessions: Default::default(),
            load_due: false,
        }
    }

    pub fn port(&self, port: u8) -> &Port {
        &self.ports[usize::from(port)]
    }

    pub fn end(&self, port: u8) -> End {
        End { life: self.life, port }
    }

    /// Whether a body waits or is not acknowledged.
    pub fn is_busy(&self) -> bool {
        self.sessions.iter().flatten().any(|session| session.sender.is_busy())
    }

    /// The topology with which the epoch was finished.
    pub fn finish(&self) -> Option<&Rc<Topology>> {
        self.epoch.as_ref()?.finish.as_ref()
    }

    /// A clock, with a sample of each port.
    pub fn clock(&mut self, now: u64, samples: &[Sample; PLACES]) -> Output {
        let mut out = Output::default();
        let mut is_change = self.epoch.is_none();
        for number in 1..=12 {
            let port = &mut self.ports[usize::from(number)];
            let (state, peer) = (port.state, port.good_peer());
            port.sample(self.life, samples[usize::from(number)]);
            if port.state != state {
                out.changed.insert(number);
            }
            is_change |= port.good_peer() != peer;
        }
        if is_change && self.epoch_number == u64::MAX {
            out.is_spent = true;
            return out;
        }
        self.probe(&mut out);
        if is_change {
            self.join(self.epoch_number + 1, now, &mut out);
        } else {
            self.send_again(now, &mut out);
        }
        out
    }

    fn probe(&self, out: &mut Output) {
        for number in (1..=12).filter(|&number| self.port(number).asks()) {
            out.frames.push((number, frame::probe(self.end(number), self.port(number).nonce)));
        }
    }

    fn send_again(&mut self, now: u64, out: &mut Output) {
        for port in 1..=12 {
            if let Some(session) = &mut self.sessions[usize::from(port)] {
                let due = session.sender.resend(now);
                self.carry(port, due, out);
            }
        }
    }

    /// A frame that came in by a port.
    pub fn frame(&mut self, now: u64, port: u8, bytes: &[u8]) -> Output {
        let mut out = Output::default();
        match frame::read(bytes) {
            None => out.is_no_frame = true,
            Some(Frame::Probe { from, nonce }) => {
                if self.port(port).asks() {
                    out.frames.push((port, frame::reply(self.end(port), from, nonce)));
                }
            }
            Some(Frame::Reply { from, to, nonce }) => {
                if to == self.end(port) {
                    self.ports[usize::from(port)].reply(from, nonce);
                }
            }
            Some(Frame::Carry { epoch, from, to, k, body }) => {
                if self.passes(port, from, to) && epoch >= self.epoch_number {
                    self.receive(now, port, (epoch, k, body), &mut out);
                }
            }
            Some(Frame::Ack { epoch, from, to, n }) => {
                if self.passes(port, from, to) && epoch == self.epoch_number {
                    if let Some(session) = &mut self.sessions[usize::from(port)] {
                        let sent = session.sender.acknowledge(n, now);
                        self.carry(port, sent, &mut out);
                    }
                }
            }
        }
        out
    }

    /// Whether the peer of a good port sent this to this end.
    fn passes(&self, port: u8, from: End, to: End) -> bool {
        self.port(port).good_peer() == Some(from) && to == self.end(port)
    }

    /// A body of this epoch or a greater one.
    fn receive(&mut self, now: u64, port: u8, (epoch, k, body): (u64, u32, Body), out: &mut Output) {
        if epoch > self.epoch_number {
            self.join(epoch, now, out);
        }
        let Some(session) = &mut self.sessions[usize::from(port)] else {
            return;
        };
        let Some(accepted) = session.receiver.receive(k, body) else {
            return;
        };
        let last = session.receiver.last;
        if let Some(peer) = self.port(port).peer {
            out.frames.push((port, frame::ack(self.epoch_number, self.end(port), peer, last)));
        }
        for body in accepted {
            if let Some(epoch) = &mut self.epoch {
                let had_finished = epoch.finish.is_some();
                let sends = epoch.accept(port, body);
                let has_finished = epoch.finish.is_some() && !had_finished;
                self.push(sends, now, out);
                self.finished(has_finished, out);
            }
        }
    }

    /// Joins an epoch with the present good links; all sessions begin anew.
    fn join(&mut self, epoch_number: u64, now: u64, out: &mut Output) {
        let good = (1..=12).filter_map(|port| Some(PortLink { port, peer: self.port(port).good_peer()? }));
        let links: Vec<PortLink> = good.collect();
        self.sessions = Default::default();
        for link in &links {
            self.sessions[usize::from(link.port)] = Some(Session::default());
        }
        let (epoch, sends) = Epoch::join(self.life, self.number, links);
        let has_finished = epoch.finish.is_some();
        self.epoch_number = epoch_number;
        self.epoch = Some(epoch);
        self.load_due = false;
        out.joined = Some(epoch_number);
        self.push(sends, now, out);
        self.finished(has_finished, out);
    }

    fn finished(&mut self, has_finished: bool, out: &mut Output) {
        self.load_due |= has_finished;
        out.has_finished |= has_finished;
    }

    fn push(&mut self, sends: Sends, now: u64, out: &mut Output) {
        for (port, body) in sends {
            if let Some(session) = &mut self.sessions[usize::from(port)] {
                let sent = session.sender.push(body, now);
                self.carry(port, sent, out);
            }
        }
    }

    /// Sends the bodies with these numbers.
    fn carry(&self, port: u8, numbers: impl IntoIterator<Item = u32>, out: &mut Output) {
        if let (Some(session), Some(peer)) = (&self.sessions[usize::from(port)], self.port(port).peer) {
            let carried = numbers.into_iter().map(|k| {
                (port, frame::carry(self.epoch_number, self.end(port), peer, k, session.sender.body(k)))
            });
            out.frames.extend(carried);
        }
    }

    /// The topology with which the epoch was finished is loaded; this switch proposes its number there from now on.
    pub fn load(&mut self) -> Option<Rc<Topology>> {
        let topology = self.finish()?.clone();
        let place = topology.entries.iter().position(|entry| entry.life == self.life)?;
        self.number = topology.numbers[place];
        self.load_due = false;
        Some(topology)
    }
}
