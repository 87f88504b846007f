//! The text of a journal, behind that of its script.

use crate::script::{Event, Script, MOST_COUNT, MOST_NOISE};
use crate::text::{lines, number_within, push_number, words};
use std::collections::HashMap;

const LINE_LIMIT: usize = 200;

/// The first faulty line, from 1, with its cause.
pub struct Fault {
    pub line: usize,
    pub cause: &'static str,
}

/// The script and the journal of one input. The script goes up to the first line whose only word is `end`, with the
/// lines without words behind it.
pub fn divide(data: &[u8]) -> (&[u8], &[u8]) {
    let (mut place, mut has_ended) = (0, false);
    for line in data.split_inclusive(|&byte| byte == b'\n') {
        let mut words = lines(line).flat_map(words);
        let first = words.next();
        if has_ended && first.is_some() {
            return data.split_at(place);
        }
        has_ended |= first == Some(b"end") && words.next().is_none();
        place += line.len();
    }
    (data, &[])
}

/// The events of a text, up to its line `end`.
pub fn read(script: &Script, data: &[u8]) -> Result<Vec<Event>, Fault> {
    let names = Names::of(script);
    let mut events = Vec::new();
    let mut found = Vec::new();
    let mut count = 0;
    for line in data.split_inclusive(|&byte| byte == b'\n') {
        count += 1;
        let fault = |cause| Fault { line: count, cause };
        if count == 1 {
            if line != b"journal 1\n" {
                return Err(fault("bad header"));
            }
            continue;
        }
        let line = line.strip_suffix(b"\n").filter(|line| is_line(line)).ok_or(fault("unknown word"))?;
        if line == b"end" {
            return Ok(events);
        }
        found.clear();
        found.extend(line.split(|&byte| byte == b' '));
        events.push(names.event(&found).map_err(fault)?);
    }
    Err(Fault { line: count + 1, cause: "no end" })
}

fn is_line(line: &[u8]) -> bool {
    line.len() <= LINE_LIMIT && line.iter().all(|byte| (b' '..=b'~').contains(byte))
}

/// The places of the names of a script.
struct Names<'a> {
    switches: HashMap<&'a [u8], usize>,
    hosts: HashMap<&'a [u8], usize>,
}

impl<'a> Names<'a> {
    fn of(script: &'a Script) -> Names<'a> {
        let wiring = &script.wiring;
        Names {
            switches: wiring
                .switches
                .iter()
                .enumerate()
                .map(|(place, it)| (it.name.as_bytes(), place))
                .collect(),
            hosts: wiring.hosts.iter().enumerate().map(|(place, it)| (it.name.as_bytes(), place)).collect(),
        }
    }

    fn event(&self, words: &[&[u8]]) -> Result<Event, &'static str> {
        if words.contains(&&b""[..]) {
            return Err("unknown word");
        }
        Ok(match *words {
            [b"tick"] => Event::Tick,
            [b"clock", s] => Event::Clock(self.switch(s)?),
            [b"take", s, p] => Event::Take(self.switch(s)?, port(p)?),
            [b"handle", s] => Event::Handle(self.switch(s)?),
            [b"load", s] => Event::Load(self.switch(s)?),
            [b"fail", s, p] => Event::Fail(self.switch(s)?, port(p)?),
            [b"repair", s, p] => Event::Repair(self.switch(s)?, port(p)?),
            [b"lose", s, p, n] => Event::Lose(self.switch(s)?, port(p)?, count(n, MOST_COUNT)?),
            [b"again", s, p, n] => Event::Again(self.switch(s)?, port(p)?, count(n, MOST_COUNT)?),
            [b"swap", s, p, n] => Event::Swap(self.switch(s)?, port(p)?, count(n, MOST_COUNT)?),
            [b"noise", s, p, n] => Event::Noise(self.switch(s)?, port(p)?, count(n, MOST_NOISE)?),
            [b"send", h, g] => Event::Send(self.host(h)?, self.host(g)?),
            [b"move", k] => Event::Move(count(k, u64::from(u32::MAX))?),
            [b"restart", s] => Event::Restart(self.switch(s)?),
            _ => return Err("unknown word"),
        })
    }

    fn switch(&self, word: &[u8]) -> Result<usize, &'static str> {
        self.switches.get(word).copied().ok_or("no such name")
    }

    fn host(&self, word: &[u8]) -> Result<usize, &'static str> {
        self.hosts.get(word).copied().ok_or("no such name")
    }
}

fn port(word: &[u8]) -> Result<u8, &'static str> {
    Ok(count(word, 12)? as u8)
}

fn count(word: &[u8], most: u64) -> Result<u32, &'static str> {
    Ok(number_within(word, 1, most).ok_or("bad number")? as u32)
}

/// The text of a journal.
pub fn journal_text(script: &Script, events: &[Event]) -> Vec<u8> {
    let mut out = b"journal 1\n".to_vec();
    events.iter().for_each(|&event| push_event(&mut out, script, event));
    out.extend_from_slice(b"end\n");
    out
}

/// Writes the line of an event.
pub fn push_event(out: &mut Vec<u8>, script: &Script, event: Event) {
    let switch = |s: usize| script.wiring.switches[s].name.as_str();
    let host = |h: usize| script.wiring.hosts[h].name.as_str();
    let (word, name, numbers): (&str, &str, &[u32]) = match event {
        Event::Tick => ("tick", "", &[]),
        Event::Clock(s) => ("clock ", switch(s), &[]),
        Event::Take(s, p) => ("take ", switch(s), &[u32::from(p)]),
        Event::Handle(s) => ("handle ", switch(s), &[]),
        Event::Load(s) => ("load ", switch(s), &[]),
        Event::Fail(s, p) => ("fail ", switch(s), &[u32::from(p)]),
        Event::Repair(s, p) => ("repair ", switch(s), &[u32::from(p)]),
        Event::Lose(s, p, n) => ("lose ", switch(s), &[u32::from(p), n]),
        Event::Again(s, p, n) => ("again ", switch(s), &[u32::from(p), n]),
        Event::Swap(s, p, n) => ("swap ", switch(s), &[u32::from(p), n]),
        Event::Noise(s, p, n) => ("noise ", switch(s), &[u32::from(p), n]),
        Event::Send(h, _) => ("send ", host(h), &[]),
        Event::Move(k) => ("move", "", &[k]),
        Event::Restart(s) => ("restart ", switch(s), &[]),
    };
    out.extend_from_slice(word.as_bytes());
    out.extend_from_slice(name.as_bytes());
    for &number in numbers {
        out.push(b' ');
        push_number(out, u64::from(number));
    }
    if let Event::Send(_, to) = event {
        out.push(b' ');
        out.extend_from_slice(host(to).as_bytes());
    }
    out.push(b'\n');
}
