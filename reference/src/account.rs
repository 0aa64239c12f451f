//! Demand 3, watched from outside: the balance of every flow, and the bound of every pair.

use crate::limits::FLOWS;
use crate::scheduler::{Departure, Scheduler};

const N: usize = FLOWS as usize;

/// One flow since its first packet after an empty queue; its surplus was 0 then.
#[derive(Clone, Copy, Default)]
struct Ledger {
    bytes: i64,
    /// The sum of 1 + mark over the turns that began.
    shares: i64,
}

/// The smallest and largest lead of one flow over another while both had packets waiting.
#[derive(Clone, Copy, Default)]
struct Lead {
    now: i64,
    least: i64,
    most: i64,
}

pub struct Account {
    ledgers: [Ledger; N],
    leads: [[Lead; N]; N],
    largest: i64,
    /// The flow whose turn the last departure left open.
    serving: Option<i64>,
}

impl Account {
    pub fn new() -> Self {
        Account {
            ledgers: [Ledger::default(); N],
            leads: [[Lead::default(); N]; N],
            largest: 0,
            serving: None,
        }
    }

    /// A packet was accepted. If it woke the flow, its stretches begin here.
    pub fn accepted(&mut self, flow: i64, after: &Scheduler) {
        if after.waiting(flow) > 1 {
            return;
        }
        let flow = flow as usize;
        self.ledgers[flow] = Ledger::default();
        for other in 0..N {
            self.leads[flow][other] = Lead::default();
            self.leads[other][flow] = Lead::default();
        }
    }

    /// A packet departed. Panics if the balance or a bound fails.
    pub fn departed(&mut self, departure: &Departure, after: &Scheduler) {
        let flow = departure.flow;
        self.largest = self.largest.max(departure.size);
        let ledger = &mut self.ledgers[flow as usize];
        ledger.bytes += departure.size;
        if self.serving != Some(flow) {
            ledger.shares += 1 + departure.mark;
        }
        self.serving = after.serving();
        if after.waiting(flow) > 0 {
            self.assert_balance(flow, after);
            self.assert_bounds(departure, after);
        }
    }

    fn assert_balance(&self, flow: i64, after: &Scheduler) {
        if after.serving() == Some(flow) {
            return;
        }
        let ledger = self.ledgers[flow as usize];
        let weight = after.weight(flow).expect("a waiting flow is open");
        assert_eq!(
            ledger.bytes,
            after.surplus(flow) + weight * ledger.shares,
            "balance of flow {flow}"
        );
    }

    fn assert_bounds(&mut self, departure: &Departure, after: &Scheduler) {
        let flow = departure.flow;
        let weight = after.weight(flow).expect("a waiting flow is open");
        for other in (0..FLOWS).filter(|&other| other != flow && after.waiting(other) > 0) {
            let other_weight = after.weight(other).expect("a waiting flow is open");
            let gain = departure.size * other_weight;
            let bound = 3 * self.largest * weight * other_weight;
            self.leads[flow as usize][other as usize].assert_gain(gain, bound);
            self.leads[other as usize][flow as usize].assert_gain(-gain, bound);
        }
    }
}

impl Lead {
    fn assert_gain(&mut self, gain: i64, bound: i64) {
        self.now += gain;
        self.least = self.least.min(self.now);
        self.most = self.most.max(self.now);
        assert!(self.now - self.least < bound && self.most - self.now < bound);
    }
}
