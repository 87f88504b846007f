//! One port's session in one epoch: bodies in order, over wires that lose, repeat and reorder frames.

use crate::life::Body;
use std::collections::VecDeque;
use std::ops::Range;

const WINDOW: usize = 8;
/// The ticks after which a body is sent again.
const PATIENCE: u64 = 4;

#[derive(Default)]
pub struct Sender {
    acked: u32,
    /// The bodies behind the acknowledged ones.
    bodies: VecDeque<Body>,
    /// When each of the first of them was last sent.
    sent_at: VecDeque<u64>,
}

impl Sender {
    /// Whether a body waits or is not acknowledged.
    pub fn is_busy(&self) -> bool {
        !self.bodies.is_empty()
    }

    /// The body with a number.
    pub fn body(&self, k: u32) -> &Body {
        &self.bodies[(k - self.acked - 1) as usize]
    }

    /// One more body; gives the numbers to send.
    pub fn push(&mut self, body: Body, now: u64) -> Range<u32> {
        self.bodies.push_back(body);
        self.send_waiting(now)
    }

    /// An acknowledgement; gives the numbers to send.
    pub fn acknowledge(&mut self, n: u32, now: u64) -> Range<u32> {
        let count = n.saturating_sub(self.acked) as usize;
        if count == 0 || count > self.sent_at.len() {
            return 0..0;
        }
        self.acked = n;
        self.bodies.drain(..count);
        self.sent_at.drain(..count);
        self.send_waiting(now)
    }

    fn send_waiting(&mut self, now: u64) -> Range<u32> {
        let first = self.acked + self.sent_at.len() as u32 + 1;
        let count = WINDOW.min(self.bodies.len()) - self.sent_at.len();
        self.sent_at.extend(std::iter::repeat_n(now, count));
        first..first + count as u32
    }

    /// The numbers to send again at a clock.
    pub fn resend(&mut self, now: u64) -> Vec<u32> {
        let mut due = Vec::new();
        for (k, sent_at) in (self.acked + 1..).zip(&mut self.sent_at) {
            if now - *sent_at >= PATIENCE {
                *sent_at = now;
                due.push(k);
            }
        }
        due
    }
}

#[derive(Default)]
pub struct Receiver {
    /// How many bodies are accepted.
    pub last: u32,
    /// The bodies with the numbers behind the next one, as far as they came.
    held: [Option<Body>; WINDOW - 1],
}

impl Receiver {
    /// The bodies that a body makes accepted, or nothing where it is ahead.
    pub fn receive(&mut self, k: u32, body: Body) -> Option<Vec<Body>> {
        let mut accepted = Vec::new();
        match (u64::from(k)).checked_sub(u64::from(self.last) + 1) {
            None => {}
            Some(0) => {
                accepted.push(body);
                self.last = k;
                while let Some(next) = self.shift() {
                    accepted.push(next);
                    self.last += 1;
                }
            }
            Some(ahead) => {
                let place = self.held.get_mut(ahead as usize - 1)?;
                place.get_or_insert(body);
            }
        }
        Some(accepted)
    }

    /// Takes the body that is next.
    fn shift(&mut self) -> Option<Body> {
        let next = self.held[0].take();
        self.held.rotate_left(1);
        next
    }
}
