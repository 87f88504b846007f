//! Wrong states that are shown to `moments` in place of what is so, one for each clause, to see that it finds them.

use crate::life::{Entry, Topology};
use crate::moments::{Moment, Seen};
use crate::plain::{numbering, Rows};
use crate::script::Event;
use std::rc::Rc;

/// What is planted.
#[derive(Clone, Copy, PartialEq, Eq)]
enum Kind {
    /// A second member proposed another number, and has it.
    OtherProposal,
    /// The members have each other's numbers.
    OtherNumbers,
    /// Two members have one number.
    OneNumber,
    /// A member is one level lower.
    LowerLevel,
    /// The last member is not told of.
    FewerMembers,
    /// The last member names no link.
    FewerLinks,
    /// A row has no exit.
    NoExit,
    /// Each row has all ports of its table.
    AllExits,
    /// The table of another member is in use.
    OthersTable,
    /// A member goes on with a table of an epoch before.
    OlderTable,
    /// A hop is by another port.
    OtherExit,
    /// A hop is told of twice.
    TwoHops,
    /// A packet is given to another host.
    OtherHost,
    /// A settled switch has no table.
    NoTable,
    /// A settled switch has lost a link.
    LostLink,
    /// A settled switch is in another epoch.
    OtherEpoch,
}

/// The words of what can be planted.
const WORDS: [(&str, Kind); 16] = [
    ("other-proposal", Kind::OtherProposal),
    ("other-numbers", Kind::OtherNumbers),
    ("one-number", Kind::OneNumber),
    ("lower-level", Kind::LowerLevel),
    ("fewer-members", Kind::FewerMembers),
    ("fewer-links", Kind::FewerLinks),
    ("no-exit", Kind::NoExit),
    ("all-exits", Kind::AllExits),
    ("others-table", Kind::OthersTable),
    ("older-table", Kind::OlderTable),
    ("other-exit", Kind::OtherExit),
    ("two-hops", Kind::TwoHops),
    ("other-host", Kind::OtherHost),
    ("no-table", Kind::NoTable),
    ("lost-link", Kind::LostLink),
    ("other-epoch", Kind::OtherEpoch),
];

/// The entries of what a switch has finished with.
fn entries_of(seen: &Seen) -> Option<&Vec<Entry>> {
    seen.finish.as_ref().map(|topology| &topology.entries)
}

/// One wrong state, which is shown once, at the first moment that it can be.
pub struct Plant {
    kind: Kind,
    is_done: bool,
}

impl Plant {
    pub fn named(word: &str) -> Option<Plant> {
        let &(_, kind) = WORDS.iter().find(|(name, _)| *name == word)?;
        Some(Plant { kind, is_done: false })
    }

    /// Changes what is seen at a moment.
    pub fn change(&mut self, moment: &mut Moment, event: Option<Event>) {
        if !self.is_done {
            self.is_done = match self.kind {
                Kind::OthersTable | Kind::OlderTable => self.change_table(moment, event),
                Kind::OtherExit | Kind::TwoHops | Kind::OtherHost => self.change_hop(moment),
                Kind::NoTable | Kind::LostLink | Kind::OtherEpoch => self.change_settled(moment),
                Kind::NoExit | Kind::AllExits => false,
                _ => self.change_topology(moment),
            };
        }
    }

    /// Of the switches that have finished with two members or more, the last one sees another topology.
    fn change_topology(&self, moment: &mut Moment) -> bool {
        let has_two = |topology: &Rc<Topology>| topology.entries.len() > 1;
        let finished: Vec<usize> = (0..moment.switches.len())
            .filter(|&place| moment.switches[place].finish.as_ref().is_some_and(has_two))
            .collect();
        let Some((&last, others)) = finished.split_last() else { return false };
        let seen = &moment.switches[last];
        let is_shared = others
            .iter()
            .map(|&other| &moment.switches[other])
            .any(|other| other.epoch == seen.epoch && entries_of(other) == entries_of(seen));
        if self.kind == Kind::OtherProposal && !is_shared {
            return false;
        }
        let Some(old) = &moment.switches[last].finish else { return false };
        let mut entries: Vec<Entry> = old.entries.clone();
        let mut numbers = old.numbers.clone();
        let end = entries.len() - 1;
        match self.kind {
            Kind::OtherProposal => {
                let most = entries.iter().map(|entry| entry.proposed).chain(numbers.iter().copied()).max();
                entries[end].proposed = most.unwrap_or(0) + 1;
                numbers = numbering(&entries);
            }
            Kind::OtherNumbers => numbers.reverse(),
            Kind::OneNumber => numbers[end] = numbers[0],
            Kind::LowerLevel => entries[end].position.level += 1,
            Kind::FewerMembers => {
                entries.pop();
                numbers.pop();
            }
            _ => entries[end].links = Rc::from([]),
        }
        moment.switches[last].finish = Some(Rc::new(Topology { entries, numbers }));
        true
    }

    fn change_table(&self, moment: &mut Moment, event: Option<Event>) -> bool {
        let Some(Event::Load(place)) = event else { return false };
        let used: Vec<usize> =
            (0..moment.switches.len()).filter(|&at| moment.switches[at].table.is_some()).collect();
        let Some(&other) = used.iter().find(|&&at| at != place) else { return false };
        let member = moment.switches[other].life;
        let is_member = |topology: &Rc<Topology>| topology.entries.iter().any(|entry| entry.life == member);
        if !moment.switches[place].finish.as_ref().is_some_and(is_member) {
            return false;
        }
        if self.kind == Kind::OthersTable {
            moment.switches[other].table = moment.switches[place].table.clone();
        } else if let Some((epoch, _)) = &mut moment.switches[other].table {
            *epoch -= 1;
        }
        true
    }

    fn change_hop(&self, moment: &mut Moment) -> bool {
        let is_delivery = self.kind == Kind::OtherHost;
        let Some(hop) = moment.hops.iter().find(|hop| hop.delivered.is_some() == is_delivery).cloned() else {
            return false;
        };
        match self.kind {
            Kind::OtherExit => moment.hops[0].port = hop.port % 12 + 1,
            Kind::TwoHops => moment.hops.push(hop),
            _ => moment.hops[0].delivered = hop.delivered.map(|host| host + 1),
        }
        true
    }

    fn change_settled(&self, moment: &mut Moment) -> bool {
        if !moment.is_settled {
            return false;
        }
        let Some(seen) = moment.switches.iter_mut().find(|seen| !seen.good.is_empty()) else { return false };
        match self.kind {
            Kind::NoTable => seen.table = None,
            Kind::LostLink => seen.good.truncate(seen.good.len() - 1),
            _ => seen.epoch += 1,
        }
        true
    }

    /// Changes the rows of the members of a topology.
    pub fn change_rows(&mut self, tables: &mut [Rows]) {
        if self.is_done || tables.len() < 2 {
            return;
        }
        self.is_done = match self.kind {
            Kind::NoExit => {
                tables[0].rows.values_mut().for_each(Vec::clear);
                true
            }
            Kind::AllExits => {
                for table in tables.iter_mut() {
                    let ports: Vec<u8> =
                        table.rows.keys().map(|&(entry, _)| entry).filter(|&entry| entry != 0).collect();
                    table.rows.values_mut().for_each(|exits| exits.clone_from(&ports));
                }
                true
            }
            _ => false,
        };
    }
}
