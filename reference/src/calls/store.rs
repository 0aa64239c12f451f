//! Random calls of the store layer, on one store.

use super::draws::{Draws, Kind, Numbers};
use super::{Made, Part};
use crate::limits::STORE;
use crate::scheduler::Scheduler;
use crate::store;

const OUTGOING: usize = 258;
const LONGEST_PACKET: usize = 258;

/// The store, and bytes behind it, so that too long a one can be lent.
const STORE_ROOM: usize = STORE + 2;

pub struct StoreCalls {
    pub scheduler: Scheduler,
    pub store: Vec<u8>,
    pub outgoing: [u8; OUTGOING],
    /// The packet offered last, in its first bytes.
    pub packet: [u8; LONGEST_PACKET],
    draws: Draws,
}

impl StoreCalls {
    pub fn new(seed: u32) -> Self {
        StoreCalls {
            scheduler: Scheduler::new(),
            store: (0..STORE_ROOM).map(|i| (i + i / 256) as u8).collect(),
            outgoing: std::array::from_fn(|i| (3 * i) as u8),
            packet: [0; LONGEST_PACKET],
            draws: Draws::new(seed),
        }
    }

    fn offer(&mut self, numbers: &Numbers) -> Made {
        let (flow, length) = (numbers.flow, numbers.length);
        for (j, byte) in self.packet[..length].iter_mut().enumerate() {
            *byte = (numbers.first + j * numbers.step) as u8;
        }
        let reply = store::offer(
            &mut self.scheduler,
            &mut self.store[..numbers.store],
            flow,
            &self.packet[..length],
        );
        let size = length as i64;
        Made::Offer { flow, size, reply }
    }

    fn depart(&mut self, numbers: &Numbers) -> Made {
        Made::Departure(store::depart(
            &mut self.scheduler,
            &self.store[..numbers.store],
            &mut self.outgoing[..numbers.outgoing],
        ))
    }
}

impl Part for StoreCalls {
    const NAME: &'static str = "store";

    fn call(&mut self) -> Made {
        let numbers = self.draws.next();
        match numbers.kind {
            Kind::Reset => {
                self.scheduler.reset();
                Made::Reset
            }
            Kind::Open => Made::Open(self.scheduler.open(numbers.flow, numbers.weight)),
            Kind::Offer => self.offer(&numbers),
            Kind::Departure | Kind::Burst => self.depart(&numbers),
        }
    }

    fn lent(&self, made: &Made) -> &[u8] {
        match made {
            Made::Departure(_) => &self.outgoing,
            _ => &[],
        }
    }

    fn kept(&self) -> &[u8] {
        &self.store
    }
}
