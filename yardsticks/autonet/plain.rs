//! What a topology and its tables are, as docs/autonet/specification.md says it: slow, for small networks, and with
//! nothing of the code that makes them. Members are their places among the entries.

use crate::life::{Entry, Life, Position, Topology};
use std::collections::{BTreeMap, BTreeSet};

/// The table of a member: its number, and the exits by entry and number of the target.
#[derive(Clone, PartialEq, Eq)]
pub struct Rows {
    pub number: u8,
    pub rows: BTreeMap<(u8, u8), Vec<u8>>,
}

impl Rows {
    /// The exits at an entry for a number, none without such a row.
    pub fn exits(&self, entry: u8, number: u8) -> &[u8] {
        self.rows.get(&(entry, number)).map_or(&[], Vec::as_slice)
    }
}

/// The links of a topology: both ends name each other, and they are of two lives.
pub struct Links<'a> {
    entries: &'a [Entry],
    far: BTreeMap<(usize, u8), (usize, u8)>,
}

impl<'a> Links<'a> {
    pub fn of(entries: &'a [Entry]) -> Links<'a> {
        let mut far = BTreeMap::new();
        for (place, entry) in entries.iter().enumerate() {
            for link in entry.links.iter() {
                let other = entries.iter().position(|other| other.life == link.peer.life);
                if let Some(other) = other.filter(|&other| other != place) {
                    let is_named = entries[other].links.iter().any(|back| {
                        back.port == link.peer.port
                            && back.peer.life == entry.life
                            && back.peer.port == link.port
                    });
                    if is_named {
                        far.insert((place, link.port), (other, link.peer.port));
                    }
                }
            }
        }
        Links { entries, far }
    }

    pub fn place(&self, life: Life) -> Option<usize> {
        self.entries.iter().position(|entry| entry.life == life)
    }

    pub fn far(&self, place: usize, port: u8) -> Option<(usize, u8)> {
        self.far.get(&(place, port)).copied()
    }

    fn ports(&self, place: usize) -> Vec<u8> {
        (1..=12).filter(|&port| self.far(place, port).is_some()).collect()
    }

    /// The neighbours of a place, by its ports.
    fn neighbours(&self, place: usize) -> Vec<(u8, usize)> {
        (1..=12).filter_map(|port| Some((port, self.far(place, port)?.0))).collect()
    }

    /// The lesser level is higher; at one level the lesser life.
    fn height(&self, place: usize) -> (u8, Life) {
        (self.entries[place].position.level, self.entries[place].life)
    }

    /// Whether this port leads to the up end of its link.
    pub fn goes_up(&self, place: usize, port: u8) -> bool {
        self.far(place, port).is_some_and(|(other, _)| self.height(other) < self.height(place))
    }

    /// Whether what came in here may go up: what starts here, and what came from below.
    fn may_go_up(&self, place: usize, entry: u8) -> bool {
        entry == 0 || !self.goes_up(place, entry)
    }

    /// One link further along a legal route: the place, and whether it may go up from there.
    fn onward(&self, (place, may_go_up): (usize, bool), port: u8) -> Option<(usize, bool)> {
        let (other, _) = self.far(place, port)?;
        let goes_up = self.goes_up(place, port);
        (may_go_up || !goes_up).then_some((other, goes_up))
    }

    /// The least length of a legal route, by all places that routes of each length lead to.
    fn least(&self, from: (usize, bool), to: usize) -> Option<usize> {
        let mut seen = BTreeSet::new();
        let mut ring = BTreeSet::from([from]);
        for length in 0.. {
            if ring.iter().any(|&(place, _)| place == to) {
                return Some(length);
            }
            seen.extend(ring.iter().copied());
            ring = ring
                .iter()
                .flat_map(|&at| self.ports(at.0).into_iter().filter_map(move |port| self.onward(at, port)))
                .filter(|at| !seen.contains(at))
                .collect();
            if ring.is_empty() {
                return None;
            }
        }
        None
    }

    /// The ports that begin a legal route, unless any will do a shortest one.
    fn exits(&self, from: (usize, bool), to: usize, any_routes: bool) -> Vec<u8> {
        let least = self.least(from, to);
        let begins = |port: &u8| {
            let behind = self.onward(from, *port).and_then(|next| self.least(next, to));
            behind.is_some_and(|behind| any_routes || Some(behind + 1) == least)
        };
        self.ports(from.0).into_iter().filter(begins).collect()
    }

    /// The table of a member.
    pub fn rows(&self, place: usize, numbers: &[u8], any_routes: bool) -> Rows {
        let mut rows = BTreeMap::new();
        for entry in [0].into_iter().chain(self.ports(place)) {
            for to in (0..self.entries.len()).filter(|&to| to != place) {
                let exits = self.exits((place, self.may_go_up(place, entry)), to, any_routes);
                rows.insert((entry, numbers[to]), exits);
            }
        }
        Rows { number: numbers[place], rows }
    }

    // What is wrong with a tree.

    /// The level of each place that links lead to from the first one.
    fn levels(&self) -> BTreeMap<usize, u8> {
        let mut levels = BTreeMap::from([(0, 0)]);
        for level in 0..self.entries.len() as u8 {
            let ring: Vec<usize> =
                levels.iter().filter(|&(_, &at)| at == level).map(|(&place, _)| place).collect();
            for place in ring {
                for (_, other) in self.neighbours(place) {
                    levels.entry(other).or_insert(level + 1);
                }
            }
        }
        levels
    }

    /// The place in the tree of shortest walks from the first life.
    fn position(&self, levels: &BTreeMap<usize, u8>, place: usize) -> Option<Position> {
        let (root, level) = (self.entries[0].life, *levels.get(&place)?);
        if place == 0 {
            return Some(Position::of_root(root));
        }
        let above = self.neighbours(place).into_iter().filter(|(_, other)| levels[other] + 1 == level);
        let (parent, port) = above.map(|(port, other)| (self.entries[other].life, port)).min()?;
        Some(Position { root, level, parent, port })
    }

    fn fault_of_tree(&self) -> Option<&'static str> {
        let lives: Vec<Life> = self.entries.iter().map(|entry| entry.life).collect();
        if lives.is_empty() || lives.len() > 126 || lives.windows(2).any(|two| two[0] >= two[1]) {
            return Some("the lives do not rise");
        }
        let named: usize = self.entries.iter().map(|entry| entry.links.len()).sum();
        if named != self.far.len() {
            return Some("a link has one end");
        }
        let levels = self.levels();
        if levels.len() < lives.len() {
            return Some("the links do not join the lives");
        }
        let is_right = |place: usize| Some(self.entries[place].position) == self.position(&levels, place);
        (!(0..lives.len()).all(is_right)).then_some("a life is not at its place in the tree")
    }
}

/// The numbers of entries by rising life: the first that proposes a number has it, and the others have the lowest ones
/// that nobody proposed.
pub fn numbering(entries: &[Entry]) -> Vec<u8> {
    let is_first =
        |place: usize| entries[..place].iter().all(|other| other.proposed != entries[place].proposed);
    let free: Vec<u8> =
        (1..=126).filter(|&number| entries.iter().all(|entry| entry.proposed != number)).collect();
    (0..entries.len())
        .map(|place| match is_first(place) {
            true => entries[place].proposed,
            false => free[(0..place).filter(|&before| !is_first(before)).count()],
        })
        .collect()
}

/// What is wrong with what a life has finished with, if anything.
pub fn fault_of_topology(life: Life, topology: &Topology) -> Option<&'static str> {
    let links = Links::of(&topology.entries);
    let all: BTreeSet<u8> = topology.numbers.iter().copied().collect();
    if links.place(life).is_none() {
        Some("the life is no member")
    } else if topology.numbers != numbering(&topology.entries) {
        Some("the numbers are not those of the numbering")
    } else if all.len() < topology.entries.len() || all.iter().any(|&number| !(1..=126).contains(&number)) {
        Some("the numbers do not differ")
    } else {
        links.fault_of_tree()
    }
}

/// The rows of all members, by their places, and what follows them.
pub struct Joining<'a> {
    pub links: &'a Links<'a>,
    pub numbers: &'a [u8],
    pub tables: &'a [Rows],
    pub any_routes: bool,
}

impl Joining<'_> {
    /// What is wrong with the rows, if anything.
    pub fn fault(&self) -> Option<&'static str> {
        let count = self.tables.len();
        for to in 0..count {
            for from in 0..count {
                let lengths = self.lengths(to, (from, 0), 2 * (count - 1), &mut BTreeMap::new());
                match lengths {
                    Err(why) => return Some(why),
                    Ok((_, most)) if !self.any_routes && Some(most) != self.links.least((from, true), to) => {
                        return Some("a route is not a shortest one");
                    }
                    Ok(_) => {}
                }
            }
        }
        self.has_cycle().then_some("channels are on a cycle")
    }

    /// The least and the greatest count of links on the ways from here that follow the rows, at most so many.
    fn lengths(
        &self,
        to: usize,
        (at, entry): (usize, u8),
        most: usize,
        known: &mut BTreeMap<(usize, u8), (usize, usize)>,
    ) -> Result<(usize, usize), &'static str> {
        if at == to {
            return Ok((0, 0));
        }
        if let Some(&(least, greatest)) = known.get(&(at, entry)) {
            return if greatest <= most { Ok((least, greatest)) } else { Err("a way has too many links") };
        }
        if most == 0 {
            return Err("a way has too many links");
        }
        let mut found: Option<(usize, usize)> = None;
        for &port in self.tables[at].exits(entry, self.numbers[to]) {
            let next = self.links.far(at, port).ok_or("an exit has no link")?;
            self.links.onward((at, self.links.may_go_up(at, entry)), port).ok_or("a way is not legal")?;
            let (least, greatest) = self.lengths(to, next, most - 1, known)?;
            let (one, other) = found.unwrap_or((usize::MAX, 0));
            found = Some((one.min(least + 1), other.max(greatest + 1)));
        }
        let lengths = found.ok_or("a place has no exit")?;
        known.insert((at, entry), lengths);
        Ok(lengths)
    }

    /// Whether channels lead round. Those that lead to none that is left are taken away, until all lead to one.
    fn has_cycle(&self) -> bool {
        let mut left: BTreeSet<(usize, u8)> = self.links.far.keys().copied().collect();
        loop {
            let keeps = |&(place, port): &(usize, u8)| {
                let (other, entry) = self.links.far[&(place, port)];
                let rows = &self.tables[other];
                self.numbers.iter().any(|&to| {
                    to != rows.number
                        && rows.exits(entry, to).iter().any(|&exit| left.contains(&(other, exit)))
                })
            };
            let fewer: BTreeSet<(usize, u8)> = left.iter().copied().filter(keeps).collect();
            if fewer.len() == left.len() {
                return !left.is_empty();
            }
            left = fewer;
        }
    }
}
