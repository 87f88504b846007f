//! The bytes of frames.

use crate::life::{Body, End, Entry, Life, Offer, PortLink, Position, Topology};
use std::rc::Rc;

/// The bytes of a block.
const BLOCK: usize = 64;

pub enum Frame {
    Carry { epoch: u64, from: End, to: End, k: u32, body: Body },
    Ack { epoch: u64, from: End, to: End, n: u32 },
    Probe { from: End, nonce: u64 },
    Reply { from: End, to: End, nonce: u64 },
}

/// How many blocks a frame needs.
pub fn blocks_of(bytes: &[u8]) -> u64 {
    bytes.len().div_ceil(BLOCK) as u64
}

// Writing.

pub fn carry(epoch: u64, from: End, to: End, k: u32, body: &Body) -> Vec<u8> {
    let mut bytes = vec![1];
    bytes.extend(epoch.to_be_bytes());
    push_end(&mut bytes, from);
    push_end(&mut bytes, to);
    bytes.extend(k.to_be_bytes());
    push_body(&mut bytes, body);
    bytes
}

pub fn ack(epoch: u64, from: End, to: End, n: u32) -> Vec<u8> {
    let mut bytes = vec![2];
    bytes.extend(epoch.to_be_bytes());
    push_end(&mut bytes, from);
    push_end(&mut bytes, to);
    bytes.extend(n.to_be_bytes());
    bytes
}

pub fn probe(from: End, nonce: u64) -> Vec<u8> {
    let mut bytes = vec![3];
    push_end(&mut bytes, from);
    bytes.extend(nonce.to_be_bytes());
    bytes
}

pub fn reply(from: End, to: End, nonce: u64) -> Vec<u8> {
    let mut bytes = vec![4];
    push_end(&mut bytes, from);
    push_end(&mut bytes, to);
    bytes.extend(nonce.to_be_bytes());
    bytes
}

fn push_life(bytes: &mut Vec<u8>, life: Life) {
    bytes.extend(&life.uid.to_be_bytes()[2..]);
    bytes.extend(life.boot.to_be_bytes());
}

fn push_end(bytes: &mut Vec<u8>, end: End) {
    push_life(bytes, end.life);
    bytes.push(end.port);
}

fn push_body(bytes: &mut Vec<u8>, body: &Body) {
    match body {
        Body::Position(offer) => {
            bytes.push(1);
            bytes.extend(offer.version.to_be_bytes());
            push_life(bytes, offer.root);
            bytes.extend([offer.level, u8::from(offer.to_parent)]);
        }
        Body::Answer { version, to_parent } => {
            bytes.push(2);
            bytes.extend(version.to_be_bytes());
            bytes.push(u8::from(*to_parent));
        }
        Body::Report(entries) => {
            bytes.push(3);
            push_entries(bytes, entries);
        }
        Body::Topology(topology) => {
            bytes.push(4);
            push_entries(bytes, &topology.entries);
            bytes.extend(&topology.numbers);
        }
    }
}

fn push_entries(bytes: &mut Vec<u8>, entries: &[Entry]) {
    bytes.push(entries.len() as u8);
    for entry in entries {
        let position = entry.position;
        push_life(bytes, entry.life);
        push_life(bytes, position.root);
        bytes.push(position.level);
        push_life(bytes, position.parent);
        bytes.extend([position.port, entry.proposed, entry.links.len() as u8]);
        for link in entry.links.iter() {
            bytes.push(link.port);
            push_end(bytes, link.peer);
        }
    }
}

// Reading.

/// The frame that bytes spell.
pub fn read(bytes: &[u8]) -> Option<Frame> {
    let mut left = Left(bytes);
    let frame = left.frame()?;
    left.0.is_empty().then_some(frame)
}

/// The bytes that are left to read.
struct Left<'a>(&'a [u8]);

impl Left<'_> {
    fn frame(&mut self) -> Option<Frame> {
        Some(match self.byte(1, 4)? {
            1 => {
                let (epoch, from, to) = (self.long()?, self.end()?, self.end()?);
                Frame::Carry { epoch, from, to, k: self.positive()?, body: self.body()? }
            }
            2 => Frame::Ack { epoch: self.long()?, from: self.end()?, to: self.end()?, n: self.word()? },
            3 => Frame::Probe { from: self.end()?, nonce: self.long()? },
            _ => Frame::Reply { from: self.end()?, to: self.end()?, nonce: self.long()? },
        })
    }

    fn body(&mut self) -> Option<Body> {
        Some(match self.byte(1, 4)? {
            1 => Body::Position(Offer {
                version: self.positive()?,
                root: self.life()?,
                level: self.byte(0, 125)?,
                to_parent: self.truth()?,
            }),
            2 => Body::Answer { version: self.positive()?, to_parent: self.truth()? },
            3 => Body::Report(self.entries()?.into()),
            _ => {
                let entries = self.entries()?;
                let numbers = self.numbers(entries.len())?;
                Body::Topology(Rc::new(Topology { entries, numbers }))
            }
        })
    }

    fn entries(&mut self) -> Option<Vec<Entry>> {
        let count = self.byte(1, 126)?;
        let mut entries: Vec<Entry> = Vec::with_capacity(usize::from(count));
        for _ in 0..count {
            let entry = self.entry()?;
            if entries.last().is_some_and(|last| last.life >= entry.life) {
                return None;
            }
            entries.push(entry);
        }
        Some(entries)
    }

    fn entry(&mut self) -> Option<Entry> {
        let life = self.life()?;
        let position = Position {
            root: self.life()?,
            level: self.byte(0, 125)?,
            parent: self.life()?,
            port: self.byte(0, 12)?,
        };
        let proposed = self.byte(1, 126)?;
        let count = self.byte(0, 12)?;
        let mut links: Vec<PortLink> = Vec::with_capacity(usize::from(count));
        for _ in 0..count {
            let link = PortLink { port: self.byte(1, 12)?, peer: self.end()? };
            if links.last().is_some_and(|last| last.port >= link.port) {
                return None;
            }
            links.push(link);
        }
        Some(Entry { life, position, proposed, links: links.into() })
    }

    fn numbers(&mut self, count: usize) -> Option<Vec<u8>> {
        let mut seen = 0_u128;
        let mut numbers = Vec::with_capacity(count);
        for _ in 0..count {
            let number = self.byte(1, 126)?;
            if seen >> number & 1 == 1 {
                return None;
            }
            seen |= 1 << number;
            numbers.push(number);
        }
        Some(numbers)
    }

    fn end(&mut self) -> Option<End> {
        Some(End { life: self.life()?, port: self.byte(1, 12)? })
    }

    fn life(&mut self) -> Option<Life> {
        let uid = self.take::<6>()?.into_iter().fold(0, |uid, byte| uid << 8 | u64::from(byte));
        Some(Life { uid, boot: self.positive()? })
    }

    fn truth(&mut self) -> Option<bool> {
        Some(self.byte(0, 1)? == 1)
    }

    fn byte(&mut self, least: u8, greatest: u8) -> Option<u8> {
        let [byte] = self.take()?;
        (least..=greatest).contains(&byte).then_some(byte)
    }

    fn positive(&mut self) -> Option<u32> {
        self.word().filter(|&word| word > 0)
    }

    fn word(&mut self) -> Option<u32> {
        self.take().map(u32::from_be_bytes)
    }

    fn long(&mut self) -> Option<u64> {
        self.take().map(u64::from_be_bytes)
    }

    fn take<const N: usize>(&mut self) -> Option<[u8; N]> {
        let (&taken, left) = self.0.split_first_chunk()?;
        self.0 = left;
        Some(taken)
    }
}
