//! A topology as `ibnetdiscover` prints it.

use crate::model::{Fabric, Far, Host, Switch};
use crate::wiring::{joined, EndPort, Link};
use std::io::{self, BufRead, Write};
use std::str::FromStr;

/// Reads a topology. Only `lid N lmc M` of the own line of a switch or of a port of another node is taken.
pub fn read_topology(input: impl BufRead) -> Fabric {
    let mut reader = Reader::default();
    for line in input.lines() {
        let line = line.unwrap();
        if let Some(rest) = line.strip_prefix("Switch") {
            reader.switch(rest);
        } else if line.starts_with("Ca") || line.starts_with("Rt") {
            reader.node = Some(Node { guid: guid(quoted(&line).unwrap().0), is_switch: false });
        } else if line.starts_with('[') {
            reader.port(&line);
        }
    }
    let Reader { mut switches, links, mut end_ports, .. } = reader;
    switches.sort_by_key(|switch| switch.guid);
    end_ports.sort();
    joined(switches, &links, end_ports)
}

/// A topology that is being read.
#[derive(Default)]
struct Reader {
    /// The node whose ports come.
    node: Option<Node>,
    switches: Vec<Switch>,
    links: Vec<Link>,
    end_ports: Vec<EndPort>,
}

struct Node {
    guid: u64,
    is_switch: bool,
}

impl Reader {
    /// The line of a switch, after its first word.
    fn switch(&mut self, line: &str) {
        let (id, rest) = quoted(line).unwrap();
        self.node = Some(Node { guid: guid(id), is_switch: true });
        self.switches.push(Switch {
            guid: guid(id),
            ports: line.split_whitespace().next().unwrap().parse().unwrap(),
            lid: number_after(rest, " lid ").unwrap_or(0),
            lmc: number_after(rest, " lmc ").unwrap_or(0),
            name: String::new(),
        });
    }

    /// The line of a port, which has the port at its far side.
    fn port(&mut self, line: &str) {
        let node = self.node.as_ref().unwrap();
        let port = in_brackets(line).unwrap();
        let (id, rest) = quoted(line).unwrap();
        let far_port = in_brackets(rest).unwrap();
        if !node.is_switch {
            self.end_ports.push(EndPort {
                guid: node.guid,
                number: port,
                switch: guid(id),
                port: far_port,
                lid: number_after(rest, " lid ").unwrap_or(0),
                lmc: number_after(rest, " lmc ").unwrap_or(0),
            });
        } else if id.starts_with('S') {
            self.links.push(Link { switch: node.guid, port, other: guid(id), other_port: far_port });
        }
    }
}

/// What stands in the first quotation marks of a line, and what comes after them.
fn quoted(line: &str) -> Option<(&str, &str)> {
    line.split_once('"')?.1.split_once('"')
}

/// The GUID that an identifier has after a letter and a dash.
fn guid(id: &str) -> u64 {
    u64::from_str_radix(&id[2..], 16).unwrap()
}

/// The number after the first place of some words.
fn number_after<T: FromStr>(line: &str, words: &str) -> Option<T> {
    let rest = line.split_once(words)?.1;
    let end = rest.find(|byte: char| !byte.is_ascii_digit()).unwrap_or(rest.len());
    rest[..end].parse().ok()
}

/// The number in the first brackets of a line.
fn in_brackets(line: &str) -> Option<u8> {
    line.split_once('[')?.1.split_once(']')?.0.parse().ok()
}

/// Writes the topology of a fabric.
pub fn write_topology(fabric: &Fabric, out: &mut impl Write) -> io::Result<()> {
    writeln!(out, "#\n# Topology file: generated\n#")?;
    for switch in 0..fabric.switches.len() {
        write_switch(fabric, switch, out)?;
    }
    for host in 0..fabric.hosts.len() {
        write_host(fabric, host, out)?;
    }
    out.flush()
}

fn write_switch(fabric: &Fabric, switch: usize, out: &mut impl Write) -> io::Result<()> {
    let Switch { guid, ports, lid, lmc, name } = &fabric.switches[switch];
    writeln!(out, "\nvendid=0x2c9\ndevid=0xd2f0\nsysimgguid=0x{guid:x}\nswitchguid=0x{guid:x}({guid:x})")?;
    write!(out, "Switch\t{ports} \"S-{guid:016x}\"\t\t# \"MF0;{name}:MQM8700/U1\" ")?;
    writeln!(out, "enhanced port 0 lid {lid} lmc {lmc}")?;
    for port in 1..=*ports {
        match fabric.far(switch, port) {
            Far::Switch(other, other_port) => {
                let Switch { guid, lid, name, .. } = &fabric.switches[other as usize];
                write!(out, "[{port}]\t\"S-{guid:016x}\"[{other_port}]\t\t")?;
                writeln!(out, "# \"MF0;{name}:MQM8700/U1\" lid {lid} 4xHDR")?;
            }
            Far::Host(host) => {
                let Host { guid, lid, .. } = fabric.hosts[host as usize];
                write!(out, "[{port}]\t\"H-{guid:016x}\"[1]({:x}) \t\t", guid + 1)?;
                writeln!(out, "# \"node{host} mlx5_0\" lid {lid} 4xHDR")?;
            }
            Far::None => {}
        }
    }
    Ok(())
}

fn write_host(fabric: &Fabric, place: usize, out: &mut impl Write) -> io::Result<()> {
    let host = &fabric.hosts[place];
    let Switch { guid, lid, name, .. } = &fabric.switches[host.switch];
    writeln!(out, "\nvendid=0x2c9\ndevid=0x101b\nsysimgguid=0x{0:x}\ncaguid=0x{0:x}", host.guid)?;
    writeln!(out, "Ca\t1 \"H-{:016x}\"\t\t# \"node{place} mlx5_0\"", host.guid)?;
    write!(out, "[1]({:x}) \t\"S-{guid:016x}\"[{}]\t\t", host.guid + 1, host.port)?;
    writeln!(out, "# lid {} lmc {} \"MF0;{name}:MQM8700/U1\" lid {lid} 4xHDR", host.lid, host.lmc)
}
