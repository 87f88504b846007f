//! Who is connected with whom, and the spanning tree of each component.

use crate::ports::PLACES;
use std::collections::VecDeque;

pub struct Switch {
    pub name: String,
    pub uid: u64,
    pub had: u8,
}

pub struct Link {
    pub a: usize,
    pub a_port: u8,
    pub b: usize,
    pub b_port: u8,
}

pub struct Host {
    pub name: String,
    pub uid: u64,
    pub switch: usize,
    pub port: u8,
}

/// What is at the other end of a port.
#[derive(Clone, Copy, PartialEq, Eq)]
pub enum Far {
    Nothing,
    Switch(usize, u8),
    Host(usize),
}

#[derive(Default)]
pub struct Wiring {
    pub switches: Vec<Switch>,
    pub links: Vec<Link>,
    pub hosts: Vec<Host>,
    far: Vec<[Far; PLACES]>,
}

impl Wiring {
    pub fn add_switch(&mut self, switch: Switch) {
        self.switches.push(switch);
        self.far.push([Far::Nothing; PLACES]);
    }

    pub fn add_link(&mut self, link: Link) {
        self.far[link.a][usize::from(link.a_port)] = Far::Switch(link.b, link.b_port);
        self.far[link.b][usize::from(link.b_port)] = Far::Switch(link.a, link.a_port);
        self.links.push(link);
    }

    pub fn add_host(&mut self, host: Host) {
        self.far[host.switch][usize::from(host.port)] = Far::Host(self.hosts.len());
        self.hosts.push(host);
    }

    pub fn far(&self, switch: usize, port: u8) -> Far {
        self.far[switch][usize::from(port)]
    }

    /// The links of a switch to others: its port, and the far end.
    pub fn neighbours(&self, switch: usize) -> impl Iterator<Item = (u8, usize, u8)> + '_ {
        (1..=12).filter_map(move |port| match self.far(switch, port) {
            Far::Switch(other, far_port) if other != switch => Some((port, other, far_port)),
            _ => None,
        })
    }
}

/// A switch in the spanning tree of its component.
pub struct Member {
    pub switch: usize,
    pub level: usize,
    /// The switch above, and the own port to it.
    pub parent: Option<(usize, u8)>,
}

/// The members of each component by rising identifier, and the components by rising root.
pub fn components(wiring: &Wiring) -> Vec<Vec<Member>> {
    let mut by_uid: Vec<usize> = (0..wiring.switches.len()).collect();
    by_uid.sort_unstable_by_key(|&switch| wiring.switches[switch].uid);
    let mut levels = vec![None; wiring.switches.len()];
    let mut found = Vec::new();
    for root in by_uid {
        if levels[root].is_none() {
            found.push(component(wiring, root, &mut levels));
        }
    }
    found
}

/// The component of a root, whose levels are noted.
fn component(wiring: &Wiring, root: usize, levels: &mut [Option<usize>]) -> Vec<Member> {
    let mut members = Vec::new();
    let mut ring = VecDeque::from([root]);
    levels[root] = Some(0);
    while let Some(switch) = ring.pop_front() {
        let level = levels[switch].unwrap_or(0);
        let mut parent = None;
        for (port, other, _) in wiring.neighbours(switch) {
            match levels[other] {
                None => {
                    levels[other] = Some(level + 1);
                    ring.push_back(other);
                }
                Some(above) if above + 1 == level => {
                    let offer = (wiring.switches[other].uid, port, other);
                    parent = Some(parent.map_or(offer, |least| offer.min(least)));
                }
                Some(_) => {}
            }
        }
        members.push(Member { switch, level, parent: parent.map(|(_, port, other)| (other, port)) });
    }
    members.sort_unstable_by_key(|member| wiring.switches[member.switch].uid);
    members
}

/// The numbers of members that propose these, by rising life: the first that proposes a number has it, and
/// the others have the lowest ones that nobody proposed.
pub fn numbers(proposed: &[u8]) -> Vec<u8> {
    let mut is_proposed = [false; 127];
    for &number in proposed {
        is_proposed[usize::from(number)] = true;
    }
    let mut free = (1..=126).filter(|&number| !is_proposed[usize::from(number)]);
    let mut is_given = [false; 127];
    proposed
        .iter()
        .map(|&number| {
            if std::mem::replace(&mut is_given[usize::from(number)], true) {
                free.next().expect("at most 126 members")
            } else {
                number
            }
        })
        .collect()
}
