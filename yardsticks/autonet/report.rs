//! `replay`: the report of a journal.

use crate::expect::push_rows;
use crate::journal::{push_event, Fault};
use crate::life::Life;
use crate::port::State;
use crate::script::{Event, Script};
use crate::solo;
use crate::text::push_number;
use crate::world::{Line, Loss, Outcome, World};
use std::collections::HashMap;

/// The report of a journal, and its end.
pub fn report_text(script: &Script, events: &[Event]) -> Result<(Vec<u8>, End), Fault> {
    let mut world = World::new(script);
    let mut report = Report::new(script);
    for (place, &event) in events.iter().enumerate() {
        if !world.is_lawful(event) {
            return Err(Fault { line: place + 2, cause: "not lawful" });
        }
        world.step(event);
        report.push_event(&world);
    }
    let end = End::of(&world).ok_or(Fault { line: events.len() + 2, cause: "unfinished" })?;
    Ok((report.ended(&end), end))
}

/// How a history has ended.
pub struct End {
    outcome: Outcome,
    /// The name of the switch that is spent.
    spent: Option<String>,
    tick: u64,
    events: u64,
}

impl End {
    pub fn of(world: &World) -> Option<End> {
        let outcome = world.outcome()?;
        let spent = match outcome {
            Outcome::Spent(switch) => Some(life_name(world, switch)),
            _ => None,
        };
        Some(End { outcome, spent, tick: world.now, events: world.length })
    }

    /// The status, and the line for err.
    pub fn status(&self) -> (u8, Option<String>) {
        match self.outcome {
            Outcome::Settled => (0, None),
            Outcome::Unsettled => (1, Some(format!("autonet: unsettled at tick {}", self.tick))),
            Outcome::Spent(_) => {
                (6, Some(format!("autonet: epochs spent at {}", self.spent.as_deref().unwrap_or_default())))
            }
            Outcome::Full => (10, Some("autonet: journal full".to_string())),
        }
    }

    /// The word for the end, with the tick and the events.
    pub fn text(&self, has_name: bool) -> String {
        let word = match self.outcome {
            Outcome::Settled => "settled",
            Outcome::Unsettled => "unsettled",
            Outcome::Spent(_) => "spent",
            Outcome::Full => "full",
        };
        let name = self.spent.as_ref().filter(|_| has_name).map_or(String::new(), |name| format!(" {name}"));
        format!("{word}{name} tick {} events {}", self.tick, self.events)
    }
}

/// The name of the present life of a switch.
fn life_name(world: &World, switch: usize) -> String {
    let (name, boot) = (&world.script.wiring.switches[switch].name, world.switches[switch].life.boot);
    if boot == 1 {
        name.clone()
    } else {
        format!("{name}.{boot}")
    }
}

/// A report that is being written.
pub struct Report {
    out: Vec<u8>,
    /// The switches by their identifiers.
    switches: HashMap<u64, usize>,
}

impl Report {
    pub fn new(script: &Script) -> Report {
        let switches = script.wiring.switches.iter().enumerate().map(|(place, it)| (it.uid, place)).collect();
        Report { out: b"report 1\n".to_vec(), switches }
    }

    fn text(&mut self, text: &str) -> &mut Report {
        self.out.extend_from_slice(text.as_bytes());
        self
    }

    fn number(&mut self, n: impl Into<u64>) -> &mut Report {
        push_number(&mut self.out, n.into());
        self
    }

    fn life(&mut self, script: &Script, life: Life) -> &mut Report {
        let switch = self.switches[&life.uid];
        self.text(&script.wiring.switches[switch].name);
        if life.boot > 1 {
            self.text(".").number(life.boot);
        }
        self
    }

    fn switch(&mut self, world: &World, switch: usize) -> &mut Report {
        self.life(world.script, world.switches[switch].life)
    }

    fn host(&mut self, world: &World, host: usize) -> &mut Report {
        self.text(&world.script.wiring.hosts[host].name)
    }

    /// The lines of the last event.
    pub fn push_event(&mut self, world: &World) {
        for line in &world.lines {
            self.number(world.length).text(" ");
            self.push_line(world, line);
        }
    }

    fn push_line(&mut self, world: &World, line: &Line) {
        match *line {
            Line::Port { switch, port, state, peer } => {
                self.switch(world, switch).text(" port ").number(port).text(" ").text(state.text());
                if let Some(peer) = peer.filter(|_| state == State::Good) {
                    self.text(" ").life(world.script, peer.life).text(" ").number(peer.port);
                }
            }
            Line::NoFrame { switch, port } => {
                self.switch(world, switch).text(" noframe ").number(port);
            }
            Line::Join { switch, epoch } => {
                self.switch(world, switch).text(" join ").number(epoch);
            }
            Line::Spent { switch } => {
                self.switch(world, switch).text(" spent");
            }
            Line::Finish { switch, epoch, root, members } => {
                self.switch(world, switch).text(" finish ").number(epoch);
                self.text(" root ").life(world.script, root).text(" members ").number(members as u64);
            }
            Line::Lost { switch, port, ref why } => {
                self.text("lost ").switch(world, switch).text(" ").number(port);
                match *why {
                    Loss::Down => self.text(" down"),
                    Loss::Told => self.text(" told"),
                    Loss::Room { need, free } => {
                        self.text(" room need ").number(need).text(" free ").number(free)
                    }
                };
            }
            Line::Load { switch } => return self.push_load(world, switch),
            Line::Fail { switch, port, dropped } => {
                self.text("fail ").switch(world, switch).text(" ").number(port);
                self.text(" dropped ").number(dropped as u64);
            }
            Line::Repair { switch, port } => {
                self.text("repair ").switch(world, switch).text(" ").number(port);
            }
            Line::Packet { packet, from, to, address } => {
                self.push_send(world, packet, from, to).text(" address ").number(address);
            }
            Line::Unsent { packet, from, to, cause } => {
                self.push_send(world, packet, from, to).text(" drop ").text(cause);
            }
            Line::Moved { packet, switch, epoch, entry, port, delivered } => {
                self.text("move ")
                    .number(packet)
                    .text(" ")
                    .switch(world, switch)
                    .text(" epoch ")
                    .number(epoch);
                self.text(" from ").number(entry).text(" out ").number(port);
                if let Some(host) = delivered {
                    self.text(" deliver ").host(world, host);
                }
            }
            Line::Fell { packet, switch, cause } => {
                self.text("move ").number(packet).text(" ").switch(world, switch).text(" drop ").text(cause);
            }
            Line::Restart { switch } => {
                self.text("restart ").switch(world, switch);
            }
        }
        self.out.push(b'\n');
    }

    fn push_send(&mut self, world: &World, packet: u32, from: usize, to: usize) -> &mut Report {
        self.text("packet ").number(packet).text(" ").host(world, from).text(" to ").host(world, to)
    }

    /// A load with the rows of its table.
    fn push_load(&mut self, world: &World, switch: usize) {
        if let Some(used) = &world.tables[switch] {
            self.switch(world, switch).text(" load ").number(used.epoch).text(" number ").number(used.number);
            self.out.push(b'\n');
            push_rows(&mut self.out, &life_name(world, switch), &used.numbers, used.number, &used.table);
        }
    }

    /// The report with its last line.
    pub fn ended(mut self, end: &End) -> Vec<u8> {
        self.text("end ").text(&end.text(true)).text("\n");
        self.out
    }
}

/// The journal and the report of a run on one thread.
pub fn run_text(script: &Script) -> (Vec<u8>, End) {
    let mut out = b"journal 1\n".to_vec();
    let mut report = Report::new(script);
    let end = solo::run(script, |world, event| {
        push_event(&mut out, script, event);
        report.push_event(world);
    });
    out.extend_from_slice(b"end\n");
    out.extend_from_slice(&report.ended(&end));
    (out, end)
}
