//! What one life does in one epoch, by the bodies that it accepts.

use crate::life::{Body, Entry, Life, Offer, PortLink, Position, Topology};
use crate::ports::PLACES;
use crate::wiring::numbers;
use std::rc::Rc;

/// A tree has no lower level.
const GREATEST_LEVEL: u8 = 125;
const MOST_LIVES: usize = 126;

/// The last that came by one link.
#[derive(Clone, Default)]
struct Heard {
    offer: Option<Offer>,
    /// Whether the sender says that the link is the one to its parent.
    claims: bool,
    /// The version of the last answer.
    answered: Option<u32>,
    report: Option<Rc<[Entry]>>,
    /// Whether the report came after the last offer.
    is_fresh: bool,
}

pub struct Epoch {
    me: Life,
    proposed: u8,
    links: Rc<[PortLink]>,
    heard: [Heard; PLACES],
    position: Position,
    version: u32,
    is_stable: bool,
    pub finish: Option<Rc<Topology>>,
}

/// What is to be sent: a port, and a body.
pub type Sends = Vec<(u8, Body)>;

impl Epoch {
    /// Joins with these good links; gives what is sent too.
    pub fn join(me: Life, proposed: u8, links: Vec<PortLink>) -> (Epoch, Sends) {
        let mut epoch = Epoch {
            me,
            proposed,
            links: links.into(),
            heard: Default::default(),
            position: Position::of_root(me),
            version: 1,
            is_stable: false,
            finish: None,
        };
        let mut sends = Vec::new();
        epoch.tell_position(&mut sends);
        epoch.settle(&mut sends);
        (epoch, sends)
    }

    /// Accepts a body; gives what is sent then.
    pub fn accept(&mut self, port: u8, body: Body) -> Sends {
        let mut sends = Vec::new();
        let heard = &mut self.heard[usize::from(port)];
        match body {
            Body::Position(offer) => {
                heard.offer = Some(offer);
                heard.claims = offer.to_parent;
                heard.is_fresh = false;
                self.place(&mut sends);
                let to_parent = port == self.position.port;
                sends.push((port, Body::Answer { version: offer.version, to_parent }));
            }
            Body::Answer { version, to_parent } => {
                heard.claims = to_parent;
                heard.answered = Some(version);
            }
            Body::Report(entries) => {
                heard.report = Some(entries);
                heard.is_fresh = true;
            }
            Body::Topology(topology) => {
                if self.finish.is_none() && topology.entries.iter().any(|entry| entry.life == self.me) {
                    self.finish_with(topology, &mut sends);
                }
            }
        }
        self.settle(&mut sends);
        sends
    }

    fn heard(&self, port: u8) -> &Heard {
        &self.heard[usize::from(port)]
    }

    /// The ports whose link is said to be the one to the parent.
    fn claiming(&self) -> impl Iterator<Item = u8> + '_ {
        self.links.iter().map(|link| link.port).filter(|&port| self.heard(port).claims)
    }

    /// Takes the least position that is offered.
    fn place(&mut self, sends: &mut Sends) {
        let offered = self.links.iter().filter_map(|link| {
            let offer = self.heard(link.port).offer.filter(|offer| offer.level < GREATEST_LEVEL)?;
            Some(Position {
                root: offer.root,
                level: offer.level + 1,
                parent: link.peer.life,
                port: link.port,
            })
        });
        let least = offered.fold(Position::of_root(self.me), Position::min);
        if least != self.position {
            self.position = least;
            self.version += 1;
            self.tell_position(sends);
        }
    }

    fn tell_position(&self, sends: &mut Sends) {
        let Position { root, level, port: parent, .. } = self.position;
        for link in self.links.iter() {
            let to_parent = link.port == parent;
            sends.push((link.port, Body::Position(Offer { version: self.version, root, level, to_parent })));
        }
    }

    /// Where this life has become stable it reports, or finishes as the root.
    fn settle(&mut self, sends: &mut Sends) {
        let is_stable = self.links.iter().all(|link| self.heard(link.port).answered == Some(self.version))
            && self.claiming().all(|port| self.heard(port).is_fresh);
        if is_stable && !self.is_stable {
            if self.position.root != self.me {
                sends.push((self.position.port, Body::Report(self.report().into())));
            } else if self.finish.is_none() {
                let entries = self.report();
                let proposed: Vec<u8> = entries.iter().map(|entry| entry.proposed).collect();
                let numbers = numbers(&proposed);
                self.finish_with(Rc::new(Topology { entries, numbers }), sends);
            }
        }
        self.is_stable = is_stable;
    }

    fn finish_with(&mut self, topology: Rc<Topology>, sends: &mut Sends) {
        sends.extend(self.claiming().map(|port| (port, Body::Topology(topology.clone()))));
        self.finish = Some(topology);
    }

    /// The least entry of each life that is reported below, and the own.
    fn report(&self) -> Vec<Entry> {
        let own = Entry {
            life: self.me,
            position: self.position,
            proposed: self.proposed,
            links: self.links.clone(),
        };
        let reported = self.claiming().filter_map(|port| self.heard(port).report.as_deref()).flatten();
        let mut entries: Vec<&Entry> = reported.chain([&own]).collect();
        entries.sort();
        entries.dedup_by_key(|entry| entry.life);
        let mut others = MOST_LIVES - 1;
        entries.retain(|entry| {
            let is_me = entry.life == self.me;
            let is_kept = is_me || others > 0;
            others -= usize::from(!is_me && is_kept);
            is_kept
        });
        entries.into_iter().cloned().collect()
    }
}
