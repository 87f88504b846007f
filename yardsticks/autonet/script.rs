//! The text of a script.

use crate::text::{is_name, is_plain, lines, number, number_within, uid, words};
use crate::wiring::{Far, Host, Link, Switch, Wiring};
use std::collections::{HashMap, HashSet};

const LINE_LIMIT: usize = 200;
const MOST_SWITCHES_AND_RESTARTS: usize = 126;
const MOST_HOSTS: usize = 1_000;
const MOST_COMMANDS: usize = 10_000;
const MOST_TIME: u64 = 1_000_000;
pub const MOST_COUNT: u64 = 1_000_000;
pub const MOST_NOISE: u64 = 64;

/// What is wrong with a line.
#[derive(Clone, Copy, PartialEq, Eq)]
pub enum Cause {
    NotAscii,
    BadHeader,
    UnknownWord,
    BadNumber,
    BadName,
    NameTwice,
    UidTwice,
    NoSuchName,
    PortRange,
    PortUsed,
    TooMany,
    TimesFall,
    NoEnd,
    AfterEnd,
    LineTooLong,
    NoLink,
    TablesShort,
}

impl Cause {
    pub fn text(self) -> &'static str {
        match self {
            Cause::NotAscii => "not ascii",
            Cause::BadHeader => "bad header",
            Cause::UnknownWord => "unknown word",
            Cause::BadNumber => "bad number",
            Cause::BadName => "bad name",
            Cause::NameTwice => "name twice",
            Cause::UidTwice => "uid twice",
            Cause::NoSuchName => "no such name",
            Cause::PortRange => "port range",
            Cause::PortUsed => "port used",
            Cause::TooMany => "too many",
            Cause::TimesFall => "times fall",
            Cause::NoEnd => "no end",
            Cause::AfterEnd => "after end",
            Cause::LineTooLong => "line too long",
            Cause::NoLink => "no link",
            Cause::TablesShort => "tables short",
        }
    }
}

/// The first faulty line, from 1, with its first cause.
pub struct Fault {
    pub line: usize,
    pub cause: Cause,
}

/// What happens in a network; switches and hosts by their places.
#[derive(Clone, Copy, PartialEq, Eq)]
pub enum Event {
    Tick,
    Clock(usize),
    Take(usize, u8),
    Handle(usize),
    Load(usize),
    Fail(usize, u8),
    Repair(usize, u8),
    Lose(usize, u8, u32),
    Again(usize, u8, u32),
    Swap(usize, u8, u32),
    Noise(usize, u8, u32),
    Send(usize, usize),
    Move(u32),
    Restart(usize),
}

/// An event of the script, and the tick from which it is due.
pub struct Command {
    pub time: u64,
    pub event: Event,
}

#[derive(Default)]
pub struct Script {
    pub wiring: Wiring,
    pub limit_ticks: Option<u64>,
    pub limit_events: Option<u64>,
    pub limit_blocks: Option<u64>,
    pub epoch: Option<u64>,
    pub pace: Option<u64>,
    pub any_routes: bool,
    pub commands: Vec<Command>,
}

/// The script that a text spells.
pub fn read(data: &[u8]) -> Result<Script, Fault> {
    let mut reader = Reader::default();
    let mut count = 0;
    for line in lines(data) {
        count += 1;
        reader.line(line).map_err(|cause| Fault { line: count, cause })?;
    }
    if !reader.ended {
        return Err(Fault { line: count + 1, cause: Cause::NoEnd });
    }
    Ok(reader.script)
}

/// What a name stands for.
#[derive(Clone, Copy)]
enum Named {
    Switch(usize),
    Host(usize),
}

/// A script that is being read, line by line.
#[derive(Default)]
pub struct Reader<'a> {
    pub script: Script,
    pub ended: bool,
    has_begun: bool,
    words: Vec<&'a [u8]>,
    names: HashMap<&'a [u8], Named>,
    uids: HashSet<u64>,
    restarts: usize,
    time: u64,
}

impl<'a> Reader<'a> {
    pub fn line(&mut self, line: &'a [u8]) -> Result<(), Cause> {
        if line.len() > LINE_LIMIT {
            return Err(Cause::LineTooLong);
        }
        if !is_plain(line) {
            return Err(Cause::NotAscii);
        }
        let mut found = std::mem::take(&mut self.words);
        found.clear();
        found.extend(words(line));
        let read = self.line_of(&found);
        self.words = found;
        read
    }

    fn line_of(&mut self, words: &[&'a [u8]]) -> Result<(), Cause> {
        if words.is_empty() {
            Ok(())
        } else if !self.has_begun {
            self.has_begun = true;
            match *words {
                [b"autonet", b"1"] => Ok(()),
                _ => Err(Cause::BadHeader),
            }
        } else if self.ended {
            Err(Cause::AfterEnd)
        } else {
            self.form(words)
        }
    }

    fn form(&mut self, words: &[&'a [u8]]) -> Result<(), Cause> {
        match *words {
            [b"end"] => self.ended = true,
            [b"limit", b"ticks", n] => set(&mut self.script.limit_ticks, n, 0, 1_000_000)?,
            [b"limit", b"events", n] => set(&mut self.script.limit_events, n, 2, 16_000_000)?,
            [b"limit", b"blocks", n] => set(&mut self.script.limit_blocks, n, 1, 1_048_576)?,
            [b"epoch", n] => set(&mut self.script.epoch, n, 0, u64::MAX)?,
            [b"pace", n] => set(&mut self.script.pace, n, 1, 1_000_000)?,
            [b"routes", b"any"] => {
                if std::mem::replace(&mut self.script.any_routes, true) {
                    return Err(Cause::NameTwice);
                }
            }
            [b"switch", name, uid] => self.switch(name, uid, b"1")?,
            [b"switch", name, uid, b"had", had] => self.switch(name, uid, had)?,
            [b"link", a, a_port, b, b_port] => self.link(a, a_port, b, b_port)?,
            [b"host", name, uid, switch, port] => self.host(name, uid, switch, port)?,
            [b"at", ref rest @ ..] => self.command_form(rest)?,
            _ => return Err(Cause::UnknownWord),
        }
        Ok(())
    }

    /// A command, behind its first word.
    fn command_form(&mut self, words: &[&[u8]]) -> Result<(), Cause> {
        match *words {
            [time, kind @ (b"fail" | b"repair"), name, port] => {
                let (time, switch, port) = (self.at(time)?, self.switch_named(name)?, port_in(port)?);
                if self.script.wiring.far(switch, port) == Far::Nothing {
                    return Err(Cause::NoLink);
                }
                let event = if kind == b"fail" { Event::Fail } else { Event::Repair };
                self.command(time, event(switch, port))
            }
            [time, kind @ (b"lose" | b"again" | b"swap" | b"noise"), name, port, count] => {
                let (time, switch, port) = (self.at(time)?, self.switch_named(name)?, port_in(port)?);
                let most = if kind == b"noise" { MOST_NOISE } else { MOST_COUNT };
                let count = number_within(count, 1, most).ok_or(Cause::BadNumber)? as u32;
                if !matches!(self.script.wiring.far(switch, port), Far::Switch(..)) {
                    return Err(Cause::NoLink);
                }
                let event = match kind {
                    b"lose" => Event::Lose,
                    b"again" => Event::Again,
                    b"swap" => Event::Swap,
                    _ => Event::Noise,
                };
                self.command(time, event(switch, port, count))
            }
            [time, b"send", from, to] => {
                let (time, from, to) = (self.at(time)?, self.host_named(from)?, self.host_named(to)?);
                self.command(time, Event::Send(from, to))
            }
            [time, b"restart", name] => {
                let (time, switch) = (self.at(time)?, self.switch_named(name)?);
                self.lives_fit()?;
                self.command(time, Event::Restart(switch))?;
                self.restarts += 1;
                Ok(())
            }
            _ => Err(Cause::UnknownWord),
        }
    }

    fn switch(&mut self, name: &'a [u8], uid: &[u8], had: &[u8]) -> Result<(), Cause> {
        let new = Switch {
            name: self.new_name(name)?,
            uid: self.new_uid(uid)?,
            had: number_within(had, 1, 126).ok_or(Cause::BadNumber)? as u8,
        };
        self.lives_fit()?;
        self.names.insert(name, Named::Switch(self.script.wiring.switches.len()));
        self.uids.insert(new.uid);
        self.script.wiring.add_switch(new);
        Ok(())
    }

    fn link(&mut self, a: &[u8], a_port: &[u8], b: &[u8], b_port: &[u8]) -> Result<(), Cause> {
        let (a, a_port) = (self.switch_named(a)?, port_in(a_port)?);
        let (b, b_port) = (self.switch_named(b)?, port_in(b_port)?);
        self.is_free(a, a_port)?;
        self.is_free(b, b_port)?;
        if (a, a_port) == (b, b_port) {
            return Err(Cause::PortUsed);
        }
        self.script.wiring.add_link(Link { a, a_port, b, b_port });
        Ok(())
    }

    fn host(&mut self, name: &'a [u8], uid: &[u8], switch: &[u8], port: &[u8]) -> Result<(), Cause> {
        let new = Host {
            name: self.new_name(name)?,
            uid: self.new_uid(uid)?,
            switch: self.switch_named(switch)?,
            port: port_in(port)?,
        };
        self.is_free(new.switch, new.port)?;
        if self.script.wiring.hosts.len() == MOST_HOSTS {
            return Err(Cause::TooMany);
        }
        self.names.insert(name, Named::Host(self.script.wiring.hosts.len()));
        self.uids.insert(new.uid);
        self.script.wiring.add_host(new);
        Ok(())
    }

    fn command(&mut self, time: u64, event: Event) -> Result<(), Cause> {
        if self.script.commands.len() == MOST_COMMANDS {
            return Err(Cause::TooMany);
        }
        self.time = time;
        self.script.commands.push(Command { time, event });
        Ok(())
    }

    fn new_name(&self, word: &[u8]) -> Result<String, Cause> {
        if !is_name(word) {
            return Err(Cause::BadName);
        }
        if self.names.contains_key(word) {
            return Err(Cause::NameTwice);
        }
        Ok(String::from_utf8_lossy(word).into_owned())
    }

    fn new_uid(&self, word: &[u8]) -> Result<u64, Cause> {
        let uid = uid(word).ok_or(Cause::BadNumber)?;
        if self.uids.contains(&uid) {
            return Err(Cause::UidTwice);
        }
        Ok(uid)
    }

    fn named(&self, word: &[u8]) -> Result<Named, Cause> {
        match self.names.get(word) {
            Some(&named) => Ok(named),
            None if is_name(word) => Err(Cause::NoSuchName),
            None => Err(Cause::BadName),
        }
    }

    pub fn switch_named(&self, word: &[u8]) -> Result<usize, Cause> {
        match self.named(word)? {
            Named::Switch(switch) => Ok(switch),
            Named::Host(_) => Err(Cause::NoSuchName),
        }
    }

    fn host_named(&self, word: &[u8]) -> Result<usize, Cause> {
        match self.named(word)? {
            Named::Switch(_) => Err(Cause::NoSuchName),
            Named::Host(host) => Ok(host),
        }
    }

    fn at(&self, word: &[u8]) -> Result<u64, Cause> {
        let time = number_within(word, 0, MOST_TIME).ok_or(Cause::BadNumber)?;
        if time < self.time {
            Err(Cause::TimesFall)
        } else {
            Ok(time)
        }
    }

    fn is_free(&self, switch: usize, port: u8) -> Result<(), Cause> {
        match self.script.wiring.far(switch, port) {
            Far::Nothing => Ok(()),
            _ => Err(Cause::PortUsed),
        }
    }

    /// Whether one more switch or restart is allowed.
    fn lives_fit(&self) -> Result<(), Cause> {
        if self.script.wiring.switches.len() + self.restarts >= MOST_SWITCHES_AND_RESTARTS {
            return Err(Cause::TooMany);
        }
        Ok(())
    }
}

/// Sets a setting that was not set before.
fn set(setting: &mut Option<u64>, word: &[u8], least: u64, greatest: u64) -> Result<(), Cause> {
    let value = number_within(word, least, greatest).ok_or(Cause::BadNumber)?;
    match setting.replace(value) {
        Some(_) => Err(Cause::NameTwice),
        None => Ok(()),
    }
}

fn port_in(word: &[u8]) -> Result<u8, Cause> {
    match number(word).ok_or(Cause::BadNumber)? {
        port @ 1..=12 => Ok(port as u8),
        _ => Err(Cause::PortRange),
    }
}
