//! The judgement of a fabric, and what is printed of it.

use crate::components::{components, NONE};
use crate::cycle::least_cycle;
use crate::graph::{Channels, Graph};
use crate::hop::End;
use crate::lane_walk::walk_lanes;
use crate::lane_waves::waves_lanes;
use crate::lanes::Lanes;
use crate::measure::{peak_memory, timed};
use crate::model::Fabric;
use crate::ranks::{are_ranks, ranks, Cyclic};
use crate::traffic::{Sources, Traffic};
use crate::walk::{walk, Arrival, Lost};
use crate::waves::waves;
use crate::witnesses::witnesses;
use std::collections::HashMap;
use std::fs::File;
use std::io::{self, BufWriter, Write};

/// The status for a cycle or lost routes.
const BAD: u8 = 8;

/// How a fabric is to be judged.
pub struct Task<'a> {
    pub traffic: Traffic,
    pub lanes: Option<Lanes>,
    /// The file to which ranks are written.
    pub ranks_file: Option<&'a str>,
    /// Whether dependencies are found in one way alone, and ranks are not looked at again.
    pub once: bool,
}

/// Judges a fabric, prints what is found, and gives the status.
pub fn judge(fabric: &Fabric, task: &Task) -> u8 {
    let sources = Sources::new(fabric, task.traffic);
    let (is_good, seconds) = timed(|| print_judgement(&sources, task));
    eprintln!("# all {seconds:.2} s, peak {:.0} MiB", peak_memory());
    if is_good {
        0
    } else {
        BAD
    }
}

/// Says whether there is no cycle and all routes arrive.
fn print_judgement(sources: &Sources, task: &Task) -> bool {
    let fabric = sources.fabric;
    let (mut graph, arrival) = plain_dependencies(sources, task.once);
    if let Some(lanes) = &task.lanes {
        graph = lane_dependencies(sources, lanes);
    }
    let channels = Channels::new(fabric, &graph);
    let count = channels.all().count();
    let (switches, hosts, links) = (fabric.switches.len(), fabric.hosts.len(), count / graph.lanes / 2);
    println!("fabric 1");
    println!("switches {switches} hosts {hosts} links {links} lids {}", arrival.lids);
    println!("routes {} arrived {} hops {}", arrival.routes(), arrival.arrived(), arrival.most_hops);
    println!("channels {count} dependencies {}", graph.count());
    let (found, seconds) = timed(|| ranks(&channels));
    match &found {
        Ok(ranks) => print_ranks(&channels, ranks, seconds, task),
        Err(Cyclic) => print_cycle(sources, &channels, seconds),
    }
    print_lost(fabric, &arrival);
    found.is_ok() && arrival.first_lost.is_none()
}

/// Finds the dependencies without lanes, and how the routes end: in both ways, or `once`.
fn plain_dependencies(sources: &Sources, once: bool) -> (Graph, Arrival) {
    let mut graph = Graph::new(sources.fabric, 1);
    let (arrival, seconds) = timed(|| walk(sources, &mut graph));
    eprintln!("# walk {seconds:.2} s");
    if !once {
        let mut waved = Graph::new(sources.fabric, 1);
        let (reach, seconds) = timed(|| waves(sources, &mut waved));
        eprintln!("# waves {seconds:.2} s, stops {}", reach.stops);
        let stopped = [End::Missing, End::Dead, End::Wrong].map(|end| arrival.ending(end));
        assert!(waved == graph && reach.lids == arrival.lids && reach.routes == arrival.routes());
        assert!((reach.stops == 0) == (stopped == [0; 3]));
    }
    (graph, arrival)
}

/// Finds the dependencies with lanes, in both ways.
fn lane_dependencies(sources: &Sources, lanes: &Lanes) -> Graph {
    let mut waved = Graph::new(sources.fabric, lanes.count);
    let (groups, seconds) = timed(|| waves_lanes(sources, lanes, &mut waved));
    eprintln!("# waves with lanes {seconds:.2} s, groups {groups}");
    let mut graph = Graph::new(sources.fabric, lanes.count);
    let (discards, seconds) = timed(|| walk_lanes(sources, lanes, &mut graph));
    eprintln!("# walk with lanes {seconds:.2} s, discards {discards}");
    assert!(waved == graph);
    graph
}

/// Prints how many ranks there are and, if there is a file for them, writes them.
fn print_ranks(channels: &Channels, ranks: &[u32], seconds: f64, task: &Task) {
    let (holds, again) = timed(|| task.once || are_ranks(channels, ranks));
    assert!(holds);
    eprintln!("# ranks {seconds:.3} s, verified {again:.3} s");
    let top = channels.all().map(|channel| ranks[channel]).max().unwrap_or(0);
    println!("cycle none ranks {}", top + 1);
    if let Some(path) = task.ranks_file {
        write_ranks(channels, ranks, path).unwrap();
    }
}

fn write_ranks(channels: &Channels, ranks: &[u32], path: &str) -> io::Result<()> {
    let mut file = BufWriter::new(File::create(path)?);
    for channel in channels.all() {
        writeln!(file, "rank {} {}", channels.name(channel), ranks[channel])?;
    }
    file.flush()
}

/// Prints the least cycle, and without lanes a witness for each of its dependencies.
fn print_cycle(sources: &Sources, channels: &Channels, rank_seconds: f64) {
    let (components, component_seconds) = timed(|| components(channels));
    let (cycle, cycle_seconds) = timed(|| least_cycle(channels, &components).unwrap());
    let (_, witness_seconds) = timed(|| {
        for (i, &channel) in cycle.iter().enumerate() {
            let next = cycle[(i + 1) % cycle.len()];
            assert!(channels.successors(channel).any(|other| other == next));
        }
        println!("cycle {}", cycle.len());
        print_channels(sources, channels, &cycle);
    });
    eprintln!(
        "# rank try {rank_seconds:.3} s, components {component_seconds:.3} s, cycle {cycle_seconds:.3} s, \
         witnesses {witness_seconds:.2} s; largest component {}",
        largest(&components)
    );
}

fn print_channels(sources: &Sources, channels: &Channels, cycle: &[usize]) {
    if channels.lanes() > 1 {
        cycle.iter().for_each(|&channel| println!("channel {}", channels.name(channel)));
        return;
    }
    for (&channel, witness) in cycle.iter().zip(witnesses(sources, cycle)) {
        let (lid, source) = (witness.lid, witness.source);
        println!("channel {} lid {lid} from 0x{source:016x}", channels.name(channel));
    }
}

/// How many channels the largest component has.
fn largest(components: &[u32]) -> usize {
    let mut sizes = HashMap::new();
    for component in components.iter().filter(|&&component| component != NONE) {
        *sizes.entry(component).or_insert(0) += 1;
    }
    sizes.into_values().max().unwrap_or(0)
}

/// Prints how many routes do not arrive, and the least of them.
fn print_lost(fabric: &Fabric, arrival: &Arrival) {
    let Some(Lost { lid, source, switch, end }) = arrival.first_lost else { return };
    println!(
        "lost {} missing {} dead {} wrong {} loop {}",
        arrival.routes() - arrival.arrived(),
        arrival.ending(End::Missing),
        arrival.ending(End::Dead),
        arrival.ending(End::Wrong),
        arrival.ending(End::Loop)
    );
    let place = fabric.switches[switch].guid;
    println!("first lid {lid} from 0x{source:016x} at 0x{place:016x} {end:?}");
}
