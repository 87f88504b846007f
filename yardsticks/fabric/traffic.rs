//! Which end ports send, and whose the LIDs are to which they send.

use crate::model::Fabric;

/// Between which end ports there are routes: those of hosts, and the ports 0 of switches.
#[derive(Clone, Copy, PartialEq, Eq)]
pub enum Traffic {
    /// From hosts to hosts.
    Hosts,
    /// From hosts to all.
    Lids,
    /// From all to all.
    All,
}

impl Traffic {
    /// The traffic of a word; any other word is `lids`.
    pub fn named(word: &str) -> Traffic {
        match word {
            "hosts" => Traffic::Hosts,
            "all" => Traffic::All,
            _ => Traffic::Lids,
        }
    }
}

/// Whose a LID is: the end port of a host, or port 0 of a switch.
#[derive(Clone, Copy, PartialEq, Eq)]
pub enum Owner {
    Switch(u32),
    Host(u32),
}

/// An end port that sends.
pub struct Sender {
    pub guid: u64,
    pub switch: usize,
    pub owner: Owner,
}

/// The end ports that send, and the LIDs to which they send.
pub struct Sources<'a> {
    pub fabric: &'a Fabric,
    traffic: Traffic,
    /// How many end ports send at each switch.
    counts: Vec<u32>,
    /// The switches at which one sends.
    pub starts: Vec<usize>,
    /// The owner of each LID to which is sent.
    pub owners: Vec<Option<Owner>>,
}

impl<'a> Sources<'a> {
    pub fn new(fabric: &'a Fabric, traffic: Traffic) -> Sources<'a> {
        let own = u32::from(traffic == Traffic::All);
        let mut counts = vec![own; fabric.switches.len()];
        for host in &fabric.hosts {
            counts[host.switch] += 1;
        }
        let starts = (0..counts.len()).filter(|&switch| counts[switch] > 0).collect();
        Sources { fabric, traffic, counts, starts, owners: owners(fabric, traffic) }
    }

    /// How many end ports send.
    pub fn total(&self) -> u64 {
        self.counts.iter().map(|&count| u64::from(count)).sum()
    }

    /// The switch at which the owner of a LID itself sends, if it does.
    pub fn home(&self, owner: Owner) -> Option<usize> {
        match owner {
            Owner::Host(host) => Some(self.fabric.hosts[host as usize].switch),
            Owner::Switch(switch) => (self.traffic == Traffic::All).then_some(switch as usize),
        }
    }

    /// How many end ports at a switch send to an owner with this home. None sends to itself.
    #[inline]
    pub fn sending(&self, switch: usize, home: Option<usize>) -> u32 {
        self.counts[switch] - u32::from(home == Some(switch))
    }

    /// The end ports that send, by rising GUIDs.
    pub fn senders(&self) -> Vec<Sender> {
        let hosts = self.fabric.hosts.iter().enumerate();
        let mut senders: Vec<Sender> = hosts
            .map(|(place, host)| Sender {
                guid: host.guid,
                switch: host.switch,
                owner: Owner::Host(place as u32),
            })
            .collect();
        if self.traffic == Traffic::All {
            let switches = self.fabric.switches.iter().enumerate();
            senders.extend(switches.map(|(place, switch)| Sender {
                guid: switch.guid,
                switch: place,
                owner: Owner::Switch(place as u32),
            }));
        }
        senders.sort_by_key(|sender| sender.guid);
        senders
    }
}

/// The owner of each LID to which is sent.
fn owners(fabric: &Fabric, traffic: Traffic) -> Vec<Option<Owner>> {
    let mut owners = vec![None; fabric.lids];
    for (place, host) in fabric.hosts.iter().enumerate() {
        owners[host.lids()].fill(Some(Owner::Host(place as u32)));
    }
    if traffic != Traffic::Hosts {
        for (place, switch) in fabric.switches.iter().enumerate() {
            owners[switch.lids()].fill(Some(Owner::Switch(place as u32)));
        }
    }
    owners[0] = None;
    owners
}
