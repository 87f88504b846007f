//! The yardstick of `fabric`: an unverified program that finds what `fabric judge` and `fabric lanes` find, and makes
//! fabrics. yardsticks/README.md has its words.
//!
//! `walk` finds the dependencies by pointers and `waves` by waves, `lane_walk` and `lane_waves` those with lanes.
//! `judge` compares them, and prints what `ranks`, or `components`, `cycle` and `witnesses`, find in the graph.

#![forbid(unsafe_code)]

mod bits;
mod columns;
mod components;
mod cycle;
mod dragonfly;
mod fat_tree;
mod front;
mod gen;
mod graph;
mod hop;
mod judge;
mod lane_walk;
mod lane_waves;
mod lanes;
mod least_hops;
mod measure;
mod model;
mod opensm;
mod random;
mod ranks;
mod rng;
mod slow;
mod tables;
mod topology;
mod torus;
mod traffic;
mod walk;
mod waves;
mod wiring;
mod witnesses;

use judge::{judge, Task};
use lanes::Lanes;
use measure::timed;
use model::Fabric;
use std::fs::File;
use std::io::{BufRead, BufReader, BufWriter};
use std::process::ExitCode;
use torus::Torus;
use traffic::Traffic;

/// The status for a fault in the tables.
const FAULT: u8 = 3;

fn main() -> ExitCode {
    let words: Vec<String> = std::env::args().skip(1).collect();
    let words: Vec<&str> = words.iter().map(String::as_str).collect();
    ExitCode::from(run(&words))
}

/// Does what the words ask for, and gives the status.
fn run(words: &[&str]) -> u8 {
    match *words {
        ["judge", topology, tables, ref rest @ ..] => judge_files(topology, tables, rest, false),
        ["once", topology, tables, ref rest @ ..] => judge_files(topology, tables, rest, true),
        ["dumps", traffic, folder, ref rest @ ..] => judge_dumps(traffic, folder, rest.first().copied()),
        ["bench", traffic, lanes, ref kind @ ..] => bench(traffic, lanes, kind),
        ["gen", form, prefix, ref kind @ ..] => write_fabric(form, prefix, kind),
        ["parse", topology, tables, ..] => parse(topology, tables),
        ["lines", tables, ..] => count_lines(tables),
        _ => panic!("words"),
    }
}

fn open(path: &str) -> BufReader<File> {
    BufReader::new(File::open(path).unwrap())
}

/// Reads a topology as `ibnetdiscover` prints it, or OpenSM's list of a subnet, which begins with a brace.
fn read_topology(path: &str) -> Fabric {
    let mut file = open(path);
    if file.fill_buf().unwrap().starts_with(b"{") {
        opensm::read_subnet(file)
    } else {
        topology::read_topology(file)
    }
}

/// Judges a topology and tables as tools print them.
fn judge_files(topology: &str, tables: &str, rest: &[&str], once: bool) -> u8 {
    let (mut fabric, seconds) = timed(|| read_topology(topology));
    let (read, table_seconds) = timed(|| tables::read_tables(&mut fabric, File::open(tables).unwrap(), true));
    let sums = match read {
        Ok(sums) => sums,
        Err(fault) => return refuse(&fault),
    };
    let (bytes, lines, entries) = (sums.bytes, sums.lines, sums.entries);
    eprintln!(
        "# topology {seconds:.2} s; tables {table_seconds:.2} s, {bytes} bytes, {lines} lines, {entries} entries, \
         {:.0} MB/s",
        bytes as f64 / table_seconds / 1e6
    );
    let traffic = Traffic::named(rest.first().unwrap_or(&"lids"));
    judge(&fabric, &Task { traffic, lanes: None, ranks_file: rest.get(1).copied(), once })
}

/// Tells a fault in the tables.
fn refuse(fault: &str) -> u8 {
    eprintln!("fabric: {fault}");
    FAULT
}

/// Judges the files that OpenSM dumps into a folder.
fn judge_dumps(traffic: &str, folder: &str, files: Option<&str>) -> u8 {
    let path = |name: &str| format!("{folder}/{name}");
    let mut fabric = match File::open(path("ibnetdiscover.txt")) {
        Ok(topology) if files == Some("net") => topology::read_topology(BufReader::new(topology)),
        _ => opensm::read_subnet(open(&path("opensm-subnet.lst"))),
    };
    let tables = File::open(path("opensm-lfts.dump")).unwrap();
    if let Err(fault) = tables::read_tables(&mut fabric, tables, true) {
        return refuse(&fault);
    }
    let lanes = |levels| opensm::read_lanes(&fabric, open(&path("opensm-sl2vl.dump")), levels);
    let lanes = match files {
        Some("lanes") => Some(lanes(Some(open(&path("path-sl.dump"))))),
        Some("all-levels") => Some(lanes(None)),
        _ => None,
    };
    judge(&fabric, &Task { traffic: Traffic::named(traffic), lanes, ranks_file: None, once: false })
}

/// Makes a fabric in memory and judges it.
fn bench(traffic: &str, lanes: &str, kind: &[&str]) -> u8 {
    let (fabric, seconds) = timed(|| gen::by_words(kind));
    let (switches, hosts) = (fabric.switches.len(), fabric.hosts.len());
    let size = fabric.lft.len() as f64 / 1048576.0;
    eprintln!("# made {seconds:.2} s: {switches} switches, {hosts} hosts, tables of {size:.1} MiB");
    let lanes = made_lanes(&fabric, lanes, kind);
    judge(&fabric, &Task { traffic: Traffic::named(traffic), lanes, ranks_file: None, once: false })
}

/// The lanes of a word: none, those of a torus, or so many.
fn made_lanes(fabric: &Fabric, word: &str, kind: &[&str]) -> Option<Lanes> {
    let torus = || Torus([1, 2, 3].map(|i| kind[i].parse().unwrap()));
    match word {
        "-" => None,
        "torus" => Some(Lanes::of_torus(fabric, torus(), false)),
        "torus-all" => Some(Lanes::of_torus(fabric, torus(), true)),
        count => Some(Lanes::by_class(fabric, count.parse().unwrap())),
    }
}

/// Writes the topology and the tables of a fabric that is made.
fn write_fabric(form: &str, prefix: &str, kind: &[&str]) -> u8 {
    let fabric = gen::by_words(kind);
    let create =
        |end: &str| BufWriter::with_capacity(tables::PIECE, File::create(format!("{prefix}.{end}")).unwrap());
    topology::write_topology(&fabric, &mut create("topo")).unwrap();
    tables::write_tables(&fabric, &mut create("lfts"), form == "long").unwrap();
    0
}

/// Reads a topology and tables, and does nothing else.
fn parse(topology: &str, tables: &str) -> u8 {
    let mut fabric = read_topology(topology);
    let tables = File::open(tables).unwrap();
    let (sums, seconds) = timed(|| tables::read_tables(&mut fabric, tables, false).unwrap());
    println!("{} entries {seconds:.2} s {:.0} MB/s", sums.entries, sums.bytes as f64 / seconds / 1e6);
    0
}

/// Counts the lines of tables, and does nothing else.
fn count_lines(tables: &str) -> u8 {
    let (lines, seconds) = timed(|| tables::count_lines(File::open(tables).unwrap()));
    println!("{lines} lines {seconds:.2} s");
    0
}
