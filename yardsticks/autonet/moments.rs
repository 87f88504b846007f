//! What is claimed of a legal journal, looked at after each of its beginnings by the plain definitions (plain.rs).

use crate::journal::Fault;
use crate::life::{Life, PortLink, Topology};
use crate::plain::{fault_of_topology, Joining, Links, Rows};
use crate::planted::Plant;
use crate::report::End;
use crate::script::{Event, Script};
use crate::table::InUse;
use crate::wiring::Far;
use crate::world::{Line, Outcome, World};
use std::collections::{BTreeMap, BTreeSet};
use std::rc::Rc;

/// What is seen of a switch at a moment.
#[derive(Clone)]
pub struct Seen {
    pub life: Life,
    pub epoch: u64,
    pub finish: Option<Rc<Topology>>,
    /// The table in use, with its epoch.
    pub table: Option<(u64, Rows)>,
    pub good: Vec<PortLink>,
}

/// A hop of a packet, as it is told.
#[derive(Clone)]
pub struct Hop {
    pub packet: u32,
    pub place: usize,
    pub epoch: u64,
    pub entry: u8,
    pub port: u8,
    pub delivered: Option<usize>,
}

/// What is seen after some events.
pub struct Moment {
    pub switches: Vec<Seen>,
    pub hops: Vec<Hop>,
    pub is_settled: bool,
}

impl Moment {
    fn of(world: &World) -> Moment {
        let hop_of = |line: &Line| match *line {
            Line::Moved { packet, switch: place, epoch, entry, port, delivered } => {
                Some(Hop { packet, place, epoch, entry, port, delivered })
            }
            _ => None,
        };
        Moment {
            switches: (0..world.switches.len()).map(|place| seen(world, place)).collect(),
            hops: world.lines.iter().filter_map(hop_of).collect(),
            is_settled: world.outcome() == Some(Outcome::Settled),
        }
    }
}

fn seen(world: &World, place: usize) -> Seen {
    let switch = &world.switches[place];
    Seen {
        life: switch.life,
        epoch: switch.epoch_number,
        finish: switch.finish().cloned(),
        table: world.tables[place].as_ref().map(|used| (used.epoch, rows_of(used))),
        good: (1..=12)
            .filter_map(|port| Some(PortLink { port, peer: switch.port(port).good_peer()? }))
            .collect(),
    }
}

/// The rows of a table as the report has them.
fn rows_of(used: &InUse) -> Rows {
    let mut rows = BTreeMap::new();
    for entry in used.table.entries() {
        for &to in used.numbers.iter().filter(|&&to| to != used.number) {
            rows.insert((entry, to), used.exits(entry, to).into_iter().collect());
        }
    }
    Rows { number: used.number, rows }
}

/// The life under which a topology was built.
fn root_of(topology: &Topology) -> Life {
    topology.entries[0].position.root
}

fn same(one: &Topology, other: &Topology) -> bool {
    std::ptr::eq(one, other) || (one.entries == other.entries && one.numbers == other.numbers)
}

/// What a life has finished with, now or earlier.
struct Finished {
    life: Life,
    epoch: u64,
    topology: Rc<Topology>,
}

/// A packet that was sent.
struct Sent {
    to: usize,
    address: u16,
}

/// A hop to another switch.
struct Hopped {
    life: Life,
    epoch: u64,
    topology: Rc<Topology>,
    port: u8,
}

/// What was seen so far.
pub struct Watch<'a> {
    script: &'a Script,
    plant: Option<Plant>,
    finished: Vec<Finished>,
    /// The tables of members that were looked at: what they are by the definitions.
    topologies: Vec<(Rc<Topology>, Vec<Rows>)>,
    /// The epoch of each load, and the lives of the topology that was loaded.
    loads: Vec<(u64, Vec<Life>)>,
    sent: BTreeMap<u32, Sent>,
    traces: BTreeMap<u32, Vec<Hopped>>,
    moments: usize,
    tables: usize,
    /// What does not hold.
    faults: Vec<String>,
}

impl<'a> Watch<'a> {
    pub fn new(script: &'a Script, plant: Option<Plant>) -> Watch<'a> {
        Watch {
            script,
            plant,
            finished: Vec::new(),
            topologies: Vec::new(),
            loads: Vec::new(),
            sent: BTreeMap::new(),
            traces: BTreeMap::new(),
            moments: 0,
            tables: 0,
            faults: Vec::new(),
        }
    }

    /// Looks at a moment, which this event has brought, if it is not the first.
    fn look(&mut self, world: &World, event: Option<Event>) {
        let mut moment = Moment::of(world);
        if let Some(plant) = &mut self.plant {
            plant.change(&mut moment, event);
        }
        self.moments += 1;
        for seen in &moment.switches {
            self.see_finish(seen);
        }
        if let Some(Event::Load(place)) = event {
            self.see_load(&moment.switches[place]);
        }
        self.see_sends(world);
        for seen in &moment.switches {
            self.see_table(seen);
        }
        for hop in &moment.hops {
            self.see_hop(&moment, hop);
        }
        if moment.is_settled {
            self.see_settled(&moment.switches);
        }
    }

    fn fault(&mut self, clause: &str, what: &str) {
        self.faults.push(format!("{clause}: {what}"));
    }

    /// What a life has finished with, if that was not seen yet, is a topology, whose rows join all, and the one of
    /// its epoch and root.
    fn see_finish(&mut self, seen: &Seen) {
        let Some(topology) = &seen.finish else { return };
        let is_old = |old: &&Finished| old.life == seen.life && old.epoch == seen.epoch;
        if self.finished.iter().filter(is_old).any(|old| same(&old.topology, topology)) {
            return;
        }
        if let Some(why) = fault_of_topology(seen.life, topology) {
            self.fault("topologies", why);
        }
        let differs = |old: &Finished| {
            old.epoch == seen.epoch
                && root_of(&old.topology) == root_of(topology)
                && !same(&old.topology, topology)
        };
        if self.finished.iter().any(differs) {
            self.fault("picture", "one epoch and root, and two topologies");
        }
        self.see_topology(topology);
        self.finished.push(Finished { life: seen.life, epoch: seen.epoch, topology: topology.clone() });
    }

    /// The rows that are made of a topology are those of the definition, and join all members.
    fn see_topology(&mut self, topology: &Rc<Topology>) {
        if self.topologies.iter().any(|(old, _)| same(old, topology)) {
            return;
        }
        let any_routes = self.script.any_routes;
        let links = Links::of(&topology.entries);
        let made = |life| rows_of(&InUse::new(topology, life, 0, any_routes));
        let mut tables: Vec<Rows> = topology.entries.iter().map(|entry| made(entry.life)).collect();
        if let Some(plant) = &mut self.plant {
            plant.change_rows(&mut tables);
        }
        let joining = Joining { links: &links, numbers: &topology.numbers, tables: &tables, any_routes };
        let fault = joining.fault();
        let defined: Vec<Rows> =
            (0..tables.len()).map(|place| links.rows(place, &topology.numbers, any_routes)).collect();
        if let Some(why) = fault {
            self.fault("joined", why);
        }
        if tables != defined {
            self.fault("joined", "rows are not those of the definition");
        }
        self.tables += tables.len();
        self.topologies.push((topology.clone(), defined));
    }

    fn see_load(&mut self, seen: &Seen) {
        if let Some(topology) = &seen.finish {
            let lives = topology.entries.iter().map(|entry| entry.life).collect();
            self.loads.push((seen.epoch, lives));
        }
    }

    fn see_sends(&mut self, world: &World) {
        for line in &world.lines {
            if let Line::Packet { packet, to, address, .. } = *line {
                self.sent.insert(packet, Sent { to, address });
            }
        }
    }

    /// A table in use is that of what the life finished with in its epoch, and no member of a topology that was
    /// loaded uses an older one.
    fn see_table(&mut self, seen: &Seen) {
        let Some((epoch, rows)) = &seen.table else { return };
        let is_own = |old: &Finished| {
            let tables = self.topologies.iter().find(|(topology, _)| same(topology, &old.topology));
            let place = old.topology.entries.iter().position(|entry| entry.life == seen.life);
            old.life == seen.life
                && old.epoch == *epoch
                && tables.zip(place).is_some_and(|((_, tables), place)| tables[place] == *rows)
        };
        if !self.finished.iter().any(is_own) {
            self.fault("tables", "a table in use is not of what its switch finished with");
        }
        if self.loads.iter().any(|(loaded, lives)| loaded > epoch && lives.contains(&seen.life)) {
            self.fault("older", "a member uses an older table than one that is loaded");
        }
    }

    /// A hop is by the lowest exit of the row in use, hops under one epoch and root form a legal route, and a packet
    /// is delivered to the host to which it was sent.
    fn see_hop(&mut self, moment: &Moment, hop: &Hop) {
        let Some(sent) = self.sent.get(&hop.packet) else {
            return self.fault("hops", "a packet that was not sent");
        };
        if let Some(host) = hop.delivered {
            if host != sent.to || self.script.wiring.far(hop.place, hop.port) != Far::Host(host) {
                self.fault("delivered", "a packet is at another host");
            }
            return;
        }
        let seen = &moment.switches[hop.place];
        let number = (sent.address / 16) as u8;
        let is_from_host = matches!(self.script.wiring.far(hop.place, hop.entry), Far::Host(_));
        let row = if is_from_host { 0 } else { hop.entry };
        let lowest = seen.table.as_ref().and_then(|(_, rows)| rows.exits(row, number).iter().min());
        let epoch = seen.table.as_ref().map(|&(epoch, _)| epoch);
        if lowest != Some(&hop.port) || epoch != Some(hop.epoch) || hop.epoch != seen.epoch {
            self.fault("hops", "a hop is not by the lowest exit of the row in use");
        }
        match &seen.finish {
            Some(topology) => {
                let (life, epoch, port, topology) = (seen.life, hop.epoch, hop.port, topology.clone());
                self.traces.entry(hop.packet).or_default().push(Hopped { life, epoch, topology, port });
                self.see_route(hop.packet);
            }
            None => self.fault("hops", "a hop where nothing is finished"),
        }
    }

    /// The last hops of a trace, as far as they are under one epoch and root, form a legal route.
    fn see_route(&mut self, packet: u32) {
        let trace = &self.traces[&packet];
        let Some(last) = trace.last() else { return };
        let is_same =
            |hop: &&Hopped| hop.epoch == last.epoch && root_of(&hop.topology) == root_of(&last.topology);
        let mut hops: Vec<&Hopped> = trace.iter().rev().take_while(is_same).collect();
        hops.reverse();
        let links = Links::of(&last.topology.entries);
        let mut at = links.place(hops[0].life);
        let mut came_down = false;
        let mut is_legal = true;
        for hop in hops {
            let here = links.place(hop.life);
            let next = here.and_then(|place| links.far(place, hop.port));
            let goes_up = here.is_some_and(|place| links.goes_up(place, hop.port));
            is_legal &= same(&hop.topology, &last.topology) && here == at && next.is_some();
            is_legal &= !(came_down && goes_up);
            came_down |= !goes_up;
            at = next.map(|(place, _)| place);
        }
        if !is_legal {
            self.fault("routes", "hops under one epoch and root form no legal route");
        }
    }

    /// Each component has finished as exactly itself and uses its tables.
    fn see_settled(&mut self, switches: &[Seen]) {
        for (place, seen) in switches.iter().enumerate() {
            let component = component(switches, place);
            let root = component.iter().map(|&member| switches[member].life).min();
            let Some(topology) = &seen.finish else {
                self.fault("settled", "a switch has not finished");
                continue;
            };
            let lives: BTreeSet<Life> = component.iter().map(|&member| switches[member].life).collect();
            let entries: BTreeSet<Life> = topology.entries.iter().map(|entry| entry.life).collect();
            let links_are = topology.entries.iter().all(|entry| {
                component.iter().any(|&member| {
                    switches[member].life == entry.life && switches[member].good[..] == entry.links[..]
                })
            });
            let agree = component.iter().all(|&member| {
                let other = &switches[member];
                other.epoch == seen.epoch && other.finish.as_ref().is_some_and(|it| same(it, topology))
            });
            if !agree || entries != lives || !links_are {
                self.fault("settled", "a component has not finished as exactly itself");
            }
            if Some(root_of(topology)) != root {
                self.fault("settled", "a component has not finished under its least life");
            }
            if seen.table.as_ref().map(|&(epoch, _)| epoch) != Some(seen.epoch) {
                self.fault("settled", "a switch does not use the table of its epoch");
            }
        }
    }

    fn counts(&self) -> String {
        let hops: usize = self.traces.values().map(Vec::len).sum();
        format!(
            "moments {} finished {} topologies {} tables {} loads {} hops {hops}",
            self.moments,
            self.finished.len(),
            self.topologies.len(),
            self.tables,
            self.loads.len(),
        )
    }
}

/// The places that good links lead to, each named at both ends by present lives.
fn component(switches: &[Seen], place: usize) -> BTreeSet<usize> {
    let are_linked = |one: usize, other: usize| {
        switches[one].good.iter().any(|link| {
            link.peer.life == switches[other].life
                && switches[other].good.iter().any(|back| {
                    back.port == link.peer.port
                        && back.peer.life == switches[one].life
                        && back.peer.port == link.port
                })
        })
    };
    let mut found = BTreeSet::from([place]);
    loop {
        let more: BTreeSet<usize> = (0..switches.len())
            .filter(|other| found.iter().any(|&one| are_linked(one, *other)))
            .chain(found.iter().copied())
            .collect();
        if more.len() == found.len() {
            return found;
        }
        found = more;
    }
}

/// What became of a journal: whether all holds at each moment, with the counts, or what does not.
pub fn moments_text(
    script: &Script,
    events: &[Event],
    plant: Option<Plant>,
) -> Result<(bool, String), Fault> {
    let mut world = World::new(script);
    let mut watch = Watch::new(script, plant);
    watch.look(&world, None);
    for (place, &event) in events.iter().enumerate() {
        if !world.is_lawful(event) {
            return Err(Fault { line: place + 2, cause: "not lawful" });
        }
        world.step(event);
        watch.look(&world, Some(event));
        if !watch.faults.is_empty() {
            let lines = watch.faults.iter().map(|fault| format!("event {}: {fault}\n", place + 1));
            return Ok((false, lines.collect()));
        }
    }
    let end = End::of(&world).ok_or(Fault { line: events.len() + 2, cause: "unfinished" })?;
    Ok((true, format!("{} end {}\n", watch.counts(), end.text(true))))
}
