//! The text of a script with the tables for it.

use crate::ports::{Ports, PLACES};
use crate::script::{Cause, Fault, Reader, Script};
use crate::text::{is_plain, lines, number, number_within, words};
use crate::wiring::{components, Member};

const LINE_LIMIT: usize = 4_000;
/// Numbers are 1 to 126.
pub const NUMBERS: usize = 127;

/// The tables of switches, by their places.
pub struct Tables {
    numbers: Vec<Option<u8>>,
    rows: Vec<Ports>,
}

impl Tables {
    fn new(switches: usize) -> Tables {
        Tables { numbers: vec![None; switches], rows: vec![Ports::default(); switches * PLACES * NUMBERS] }
    }

    /// The number of a switch; each has one once the tables are read.
    pub fn number(&self, switch: usize) -> u8 {
        self.numbers[switch].unwrap_or(0)
    }

    /// The exits at an entry, by the number of the target.
    pub fn rows(&self, switch: usize, entry: u8) -> &[Ports] {
        let from = (switch * PLACES + usize::from(entry)) * NUMBERS;
        &self.rows[from..from + NUMBERS]
    }

    fn set(&mut self, switch: usize, entry: u8, number: u8, exits: Ports) {
        self.rows[(switch * PLACES + usize::from(entry)) * NUMBERS + usize::from(number)] = exits;
    }
}

/// A script with the components of its wiring, and the tables for it.
pub struct Judged {
    pub script: Script,
    pub components: Vec<Vec<Member>>,
    pub tables: Tables,
}

/// The script with tables that a text spells.
pub fn read(data: &[u8]) -> Result<Judged, Fault> {
    let mut script = Reader::default();
    let mut tables: Option<TableReader> = None;
    let mut count = 0;
    for line in lines(data) {
        count += 1;
        match &mut tables {
            None => script.line(line),
            Some(tables) => tables.line(&script, line),
        }
        .map_err(|cause| Fault { line: count, cause })?;
        if script.ended && tables.is_none() {
            tables = Some(TableReader::new(&script.script));
        }
    }
    match tables {
        Some(TableReader { tables, components, ended: true, .. }) => {
            Ok(Judged { script: script.script, components, tables })
        }
        _ => Err(Fault { line: count + 1, cause: Cause::NoEnd }),
    }
}

/// Tables that are being read, line by line.
struct TableReader<'a> {
    tables: Tables,
    components: Vec<Vec<Member>>,
    /// The component of each switch.
    part: Vec<usize>,
    /// The numbers given in each component, one bit for each.
    given: Vec<u128>,
    /// The entries of each switch that have their line.
    entries: Vec<Ports>,
    words: Vec<&'a [u8]>,
    ended: bool,
}

impl<'a> TableReader<'a> {
    fn new(script: &Script) -> TableReader<'a> {
        let switches = script.wiring.switches.len();
        let components = components(&script.wiring);
        let mut part = vec![0; switches];
        for (place, members) in components.iter().enumerate() {
            for member in members {
                part[member.switch] = place;
            }
        }
        TableReader {
            tables: Tables::new(switches),
            part,
            given: vec![0; components.len()],
            components,
            entries: vec![Ports::default(); switches],
            words: Vec::new(),
            ended: false,
        }
    }

    fn line(&mut self, script: &Reader, line: &'a [u8]) -> Result<(), Cause> {
        if line.len() > LINE_LIMIT {
            return Err(Cause::LineTooLong);
        }
        if !is_plain(line) {
            return Err(Cause::NotAscii);
        }
        let mut found = std::mem::take(&mut self.words);
        found.clear();
        found.extend(words(line));
        let read = self.form(script, &found);
        self.words = found;
        read
    }

    fn form(&mut self, script: &Reader, words: &[&[u8]]) -> Result<(), Cause> {
        match *words {
            [] => Ok(()),
            _ if self.ended => Err(Cause::AfterEnd),
            [b"component" | b"member", ..] => Ok(()),
            [b"end"] => {
                self.ended = true;
                if self.tables.numbers.contains(&None) {
                    Err(Cause::TablesShort)
                } else {
                    Ok(())
                }
            }
            [b"number", name, number] => self.number(script.switch_named(name)?, number),
            [b"row", name, entry, ref pairs @ ..] => self.row(script.switch_named(name)?, entry, pairs),
            _ => Err(Cause::UnknownWord),
        }
    }

    fn number(&mut self, switch: usize, word: &[u8]) -> Result<(), Cause> {
        if self.tables.numbers[switch].is_some() {
            return Err(Cause::NameTwice);
        }
        let number = number_within(word, 1, 126).ok_or(Cause::BadNumber)? as u8;
        let given = &mut self.given[self.part[switch]];
        if *given >> number & 1 == 1 {
            return Err(Cause::NameTwice);
        }
        *given |= 1 << number;
        self.tables.numbers[switch] = Some(number);
        Ok(())
    }

    fn row(&mut self, switch: usize, entry: &[u8], pairs: &[&[u8]]) -> Result<(), Cause> {
        let entry = match number(entry).ok_or(Cause::BadNumber)? {
            entry @ 0..=12 => entry as u8,
            _ => return Err(Cause::PortRange),
        };
        if self.entries[switch].contains(entry) {
            return Err(Cause::NameTwice);
        }
        self.entries[switch].insert(entry);
        let mut before = 0;
        for word in pairs {
            let (number, exits) =
                pair(word).filter(|&(number, _)| number > before).ok_or(Cause::BadNumber)?;
            self.tables.set(switch, entry, number, exits);
            before = number;
        }
        Ok(())
    }
}

/// The number and the exits that a pair spells.
fn pair(word: &[u8]) -> Option<(u8, Ports)> {
    let colon = word.iter().position(|&byte| byte == b':')?;
    let number = number_within(&word[..colon], 1, 126)? as u8;
    let mut exits = Ports::default();
    let exits_text = &word[colon + 1..];
    if exits_text != b"-" {
        let mut before = 0;
        for port in exits_text.split(|&byte| byte == b'/') {
            let port = number_within(port, before + 1, 12)?;
            exits.insert(port as u8);
            before = port;
        }
    }
    Some((number, exits))
}
