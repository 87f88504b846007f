//! The state of one port, and its two skeptics.

use crate::life::{End, Life};

const GREATEST_LEVEL: u32 = 7;
/// Good samples in a row that lower a level.
const FORGIVING: u32 = 64;
/// Probes in a row without an answer that lose a peer.
const MISSES: u32 = 2;

#[derive(Clone, Copy, PartialEq, Eq)]
pub enum State {
    Dead,
    Checking,
    Host,
    Who,
    Loop,
    Good,
}

impl State {
    pub fn text(self) -> &'static str {
        match self {
            State::Dead => "s.dead",
            State::Checking => "s.checking",
            State::Host => "s.host",
            State::Who => "s.switch.who",
            State::Loop => "s.switch.loop",
            State::Good => "s.switch.good",
        }
    }
}

/// What a switch finds at a port.
#[derive(Clone, Copy, PartialEq, Eq)]
pub enum Sample {
    Down,
    Host,
    Switch,
}

/// A level, and the count of good samples in a row.
#[derive(Clone, Copy, Default)]
struct Skeptic {
    level: u32,
    run: u32,
}

impl Skeptic {
    fn hold(self) -> u32 {
        1 << self.level
    }

    fn fail(&mut self) {
        *self = Skeptic { level: (self.level + 1).min(GREATEST_LEVEL), run: 0 };
    }

    fn good(&mut self) {
        self.run += 1;
        if self.run == FORGIVING {
            *self = Skeptic { level: self.level.saturating_sub(1), run: 0 };
        }
    }

    /// One more good sample while held back; whether that is over.
    fn dwell(&mut self) -> bool {
        self.run += 1;
        let is_over = self.run >= self.hold();
        if is_over {
            self.run = 0;
        }
        is_over
    }
}

#[derive(Clone)]
pub struct Port {
    pub state: State,
    /// Who is at the other end, where the port is good or a loop.
    pub peer: Option<End>,
    /// The number of the last probe.
    pub nonce: u64,
    /// Who answered the last probe.
    answer: Option<End>,
    status: Skeptic,
    connectivity: Skeptic,
    candidate: Option<End>,
    /// The probes in a row that the candidate answered.
    streak: u32,
    misses: u32,
}

impl Port {
    pub fn new() -> Port {
        Port {
            state: State::Dead,
            peer: None,
            nonce: 0,
            answer: None,
            status: Skeptic::default(),
            connectivity: Skeptic::default(),
            candidate: None,
            streak: 0,
            misses: 0,
        }
    }

    /// Whether the port sends probes.
    pub fn asks(&self) -> bool {
        matches!(self.state, State::Who | State::Loop | State::Good)
    }

    /// The peer of a good port.
    pub fn good_peer(&self) -> Option<End> {
        self.peer.filter(|_| self.state == State::Good)
    }

    /// One clock at a port of this life.
    pub fn sample(&mut self, me: Life, sample: Sample) {
        if sample == Sample::Down {
            return self.down();
        }
        match self.state {
            State::Dead => {
                if self.status.dwell() {
                    self.state = State::Checking;
                }
            }
            State::Checking => self.checked(sample),
            State::Host => self.status.good(),
            State::Who => {
                self.status.good();
                self.ask_who(me);
            }
            State::Loop | State::Good => {
                self.status.good();
                self.keep_peer();
            }
        }
        if self.asks() {
            self.nonce += 1;
            self.answer = None;
        }
    }

    fn down(&mut self) {
        if self.state == State::Dead {
            self.status.run = 0;
        } else {
            self.status.fail();
        }
        self.nobody(State::Dead);
    }

    fn nobody(&mut self, state: State) {
        self.state = state;
        self.streak = 0;
        self.candidate = None;
        self.peer = None;
    }

    fn checked(&mut self, sample: Sample) {
        self.nobody(if sample == Sample::Host { State::Host } else { State::Who });
        self.status.run = 0;
        self.misses = 0;
        self.answer = None;
    }

    fn ask_who(&mut self, me: Life) {
        let Some(answer) = self.answer else {
            self.streak = 0;
            self.candidate = None;
            return;
        };
        self.streak = if self.candidate == Some(answer) { self.streak + 1 } else { 1 };
        self.candidate = Some(answer);
        if self.streak == self.connectivity.hold() {
            self.state = if answer.life.uid == me.uid { State::Loop } else { State::Good };
            self.peer = Some(answer);
            self.misses = 0;
            self.connectivity.run = 0;
        }
    }

    fn keep_peer(&mut self) {
        if self.answer == self.peer {
            self.misses = 0;
            self.connectivity.good();
        } else if self.answer.is_some() {
            self.doubt();
        } else {
            self.misses += 1;
            self.connectivity.run = 0;
            if self.misses == MISSES {
                self.doubt();
            }
        }
    }

    fn doubt(&mut self) {
        self.connectivity.fail();
        self.nobody(State::Who);
    }

    /// A reply to this end. It counts where it is the first one to the last probe.
    pub fn reply(&mut self, from: End, nonce: u64) {
        if self.asks() && nonce == self.nonce && self.answer.is_none() {
            self.answer = Some(from);
        }
    }
}
