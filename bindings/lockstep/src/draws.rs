//! What a call is made with.

use crate::limits::STORE;
use crate::random::Random;

pub struct Draws(Random);

#[derive(Clone, Copy)]
pub enum Kind {
    Reset,
    Open,
    Offer,
    Depart,
    Burst,
    /// A burst of more than can wait, or hardly.
    Drain,
}

/// Of one state for a while: many flows or few, many offers or few.
#[derive(Clone, Copy)]
pub struct Phase {
    width: usize,
    opens: usize,
    load: usize,
    calls_left: usize,
    /// Nothing but opens and offers until every queue is full, then a burst.
    flood: bool,
}

const FLOOD: Phase = Phase {
    width: 32,
    opens: 64,
    load: 192,
    calls_left: 1536,
    flood: true,
};

impl Draws {
    pub fn new(seed: u64) -> Self {
        Draws(Random::new(seed))
    }

    pub fn below(&mut self, bound: usize) -> usize {
        self.0.below(bound)
    }

    pub fn one_in(&mut self, bound: usize) -> bool {
        self.0.one_in(bound)
    }

    pub fn byte(&mut self) -> u8 {
        self.below(256) as u8
    }

    pub fn phase(&mut self) -> Phase {
        if self.one_in(20) {
            return FLOOD;
        }
        Phase {
            width: 1 + self.below(34),
            opens: 1 + self.below(48),
            load: 64 + self.below(128),
            calls_left: self.below(512),
            flood: false,
        }
    }

    pub fn kind(&mut self, phase: &mut Phase) -> Kind {
        if phase.calls_left == 0 {
            let full = phase.flood;
            *phase = self.phase();
            if full {
                return Kind::Drain;
            }
        }
        phase.calls_left = phase.calls_left.saturating_sub(1);
        if self.one_in(2048) {
            return Kind::Reset;
        }
        match self.below(256) {
            r if r < phase.opens => Kind::Open,
            r if r < phase.opens + phase.load => Kind::Offer,
            r if r % 8 == 0 => Kind::Burst,
            _ => Kind::Depart,
        }
    }

    pub fn flow(&mut self, phase: &Phase) -> usize {
        let near = self.below(phase.width);
        self.far(near)
    }

    pub fn weight(&mut self) -> usize {
        let near = self.below(18);
        self.far(near)
    }

    pub fn size(&mut self) -> usize {
        let near = self.length();
        self.far(near)
    }

    /// A packet's length: mostly a good one.
    pub fn length(&mut self) -> usize {
        match self.below(64) {
            0 => self.0.pick(&[STORE - 1, STORE, STORE + 1]),
            1..=7 => self.0.pick(&[0, 1, 255, 256, 257]),
            8..=31 => 1 + self.below(16),
            _ => 1 + self.below(256),
        }
    }

    pub fn asked(&mut self, kind: Kind) -> usize {
        let near = match kind {
            Kind::Drain => 255 + self.below(8),
            _ if self.one_in(8) => self.below(300),
            _ => self.below(12),
        };
        self.far(near)
    }

    /// A list's length for so many departures: enough or hardly, and never beyond `room`.
    pub fn list_length(&mut self, asked: usize, room: usize) -> usize {
        let near = match self.below(16) {
            0 => 0,
            1 => asked.saturating_sub(1),
            2..=8 => asked,
            _ => asked.saturating_add(self.below(8)),
        };
        near.min(room)
    }

    pub fn store_length(&mut self) -> usize {
        self.wrong_at_times(STORE, &[0, 255, 256, STORE - 1, STORE + 1])
    }

    pub fn outgoing_length(&mut self) -> usize {
        self.wrong_at_times(256, &[0, 1, 255, 257, STORE - 1, STORE, STORE + 1])
    }

    fn wrong_at_times(&mut self, right: usize, others: &[usize]) -> usize {
        if self.one_in(16) {
            self.0.pick(others)
        } else {
            right
        }
    }

    /// The number, or at times one that equals it in its lower bits or is the largest there is.
    fn far(&mut self, near: usize) -> usize {
        match self.below(64) {
            0 => near + 256,
            1 => near + (1 << 16),
            2 => near + (1 << 32),
            3 => usize::MAX - near,
            _ => near,
        }
    }
}
