//! The numbers that CALLS.md draws.

const CALLS_PER_PHASE: u64 = 256;

/// What a call is made with. Every call draws all of it and uses what it needs.
pub struct Numbers {
    pub kind: Kind,
    pub flow: i64,
    pub weight: i64,
    /// A packet's length, and a size in the order layer, where it is a number.
    pub length: usize,
    pub size: i64,
    /// How many departures a burst asks for.
    pub asked: usize,
    // How many bytes of the list, the store and the outgoing buffer are lent.
    pub list: usize,
    pub store: usize,
    pub outgoing: usize,
    // The first byte of a packet, and the step from byte to byte.
    pub first: usize,
    pub step: usize,
}

/// The store layer has no burst and makes a departure instead.
pub enum Kind {
    Reset,
    Open,
    Offer,
    Departure,
    Burst,
}

/// A multiplicative generator over a prime.
pub struct Draws {
    x: u64,
    seed: u64,
    calls: u64,
}

/// Stretches of many offers and of few, to many flows and to few.
struct Phase {
    width: u64,
    opens: u64,
    load: u64,
}

impl Phase {
    fn new(number: u64) -> Self {
        Phase {
            width: 1 + 7 * number % 34,
            opens: 1 + 37 * number % 256,
            load: 768 + 397 * number % 1024,
        }
    }

    fn kind(&self, r: u64) -> Kind {
        match r {
            0 => Kind::Reset,
            r if r <= self.opens => Kind::Open,
            r if r <= self.opens + self.load => Kind::Offer,
            r if r % 4 == 0 => Kind::Burst,
            _ => Kind::Departure,
        }
    }
}

impl Draws {
    pub fn new(seed: u32) -> Self {
        let seed = u64::from(seed);
        Draws {
            x: 1 + seed % 2_147_483_646,
            seed,
            calls: 0,
        }
    }

    pub fn next(&mut self) -> Numbers {
        let phase = Phase::new(self.seed + self.calls / CALLS_PER_PHASE);
        self.calls += 1;
        let r = self.draw(2048);
        let flow = self.draw(phase.width);
        let flow = self.far(flow);
        let weight = self.draw(18);
        let weight = self.far(weight);
        let length = self.length();
        let size = self.far(length);
        let asked = self.draw(12);
        let asked = self.far(asked);
        let list = asked + self.draw(3);
        let list = self.near(list);
        let store = self.near(65_536);
        let outgoing = self.near(256);
        let bytes = self.draw(65_536);
        Numbers {
            kind: phase.kind(r),
            flow: flow as i64,
            weight: weight as i64,
            length: length as usize,
            size: size as i64,
            asked: asked as usize,
            list: list as usize,
            store: store as usize,
            outgoing: outgoing as usize,
            first: bytes as usize % 256,
            step: bytes as usize / 256,
        }
    }

    fn draw(&mut self, n: u64) -> u64 {
        self.x = self.x * 48_271 % 2_147_483_647;
        self.x % n
    }

    /// The value, seldom with a power of two added that a narrower number would lose.
    fn far(&mut self, value: u64) -> u64 {
        match self.draw(64) {
            0 => value + 256,
            1 => value + 65_536,
            2 => value + 4_294_967_296,
            _ => value,
        }
    }

    /// The length wanted, seldom up to two more or less, or none.
    fn near(&mut self, wanted: u64) -> u64 {
        match self.draw(64) {
            k @ 0..=4 => (wanted + k).saturating_sub(2),
            5 => 0,
            _ => wanted,
        }
    }

    /// A packet's length: often small, and often around the longest.
    fn length(&mut self) -> u64 {
        match self.draw(8) {
            0..=2 => self.draw(17),
            3 => 250 + self.draw(9),
            _ => self.draw(259),
        }
    }
}
