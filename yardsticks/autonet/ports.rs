//! Sets of the ports of one switch.

/// How many places an array by port has: entry 0, and the ports 1 to 12.
pub const PLACES: usize = 13;

/// A set of ports, and of entry 0.
#[derive(Clone, Copy, Default, PartialEq, Eq)]
pub struct Ports(u16);

impl Ports {
    pub fn insert(&mut self, port: u8) {
        self.0 |= 1 << port;
    }

    pub fn remove(&mut self, port: u8) {
        self.0 &= !(1 << port);
    }

    pub fn contains(self, port: u8) -> bool {
        self.0 >> port & 1 == 1
    }

    pub fn is_empty(self) -> bool {
        self.0 == 0
    }

    pub fn union(self, other: Ports) -> Ports {
        Ports(self.0 | other.0)
    }

    pub fn common(self, other: Ports) -> Ports {
        Ports(self.0 & other.0)
    }

    pub fn without(self, other: Ports) -> Ports {
        Ports(self.0 & !other.0)
    }

    pub fn first(self) -> Option<u8> {
        (self.0 != 0).then(|| self.0.trailing_zeros() as u8)
    }
}

/// The ports, rising.
impl IntoIterator for Ports {
    type Item = u8;
    type IntoIter = Rising;

    fn into_iter(self) -> Rising {
        Rising(self)
    }
}

pub struct Rising(Ports);

impl Iterator for Rising {
    type Item = u8;

    fn next(&mut self) -> Option<u8> {
        let port = self.0.first()?;
        self.0 .0 &= self.0 .0 - 1;
        Some(port)
    }
}
