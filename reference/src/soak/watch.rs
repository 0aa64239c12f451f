//! Which corners a run meets.

use crate::calls::Made;
use crate::coverage::Coverage;
use crate::scheduler::{Departure, Refusal, Scheduler};

/// What every run must meet.
const STEPS: &[&str] = &[
    "opened",
    "accepted",
    "departed",
    "idle",
    "refusal 1",
    "refusal 2",
    "refusal 3",
    "refusal 4",
    "refusal 5",
    "refusal 6",
    "round begun",
    "round with a mark",
    "turn left open",
    "turn ended at its allowance",
    "turn ended above its allowance",
    "turn ended below its allowance",
    "mark rounded up",
    "excess of a flow that ran empty",
    "arrival in its own turn",
    "arrival in a running round",
];
const BURSTS: &[&str] = &[
    "reset",
    "refusal 9",
    "burst of 0 asked",
    "burst of all asked",
    "burst that stopped at idle",
    "burst with a longer list",
];
const BUFFERS: &[&str] = &["reset", "refusal 7", "refusal 8"];

pub const TRACES: &[&[&str]] = &[STEPS];
pub const ORDER_CALLS: &[&[&str]] = &[STEPS, BURSTS];
pub const STORE_CALLS: &[&[&str]] = &[STEPS, BUFFERS];

pub struct Watch {
    pub coverage: Coverage,
    // How things stood before the call.
    serving: Option<i64>,
    sent: i64,
    round_runs: bool,
}

impl Watch {
    pub fn new(run: String, expected: &[&[&'static str]]) -> Self {
        Watch {
            coverage: Coverage::new(run, &expected.concat()),
            serving: None,
            sent: 0,
            round_runs: false,
        }
    }

    /// Stands before every call that offers or departs.
    pub fn before(&mut self, scheduler: &Scheduler) {
        self.serving = scheduler.serving();
        self.sent = scheduler.sent_in_turn();
        self.round_runs = scheduler.round_runs();
    }

    pub fn made(&mut self, made: &Made, after: &Scheduler) {
        match made {
            Made::Reset => self.coverage.met("reset"),
            Made::Open(reply) => self.opened(*reply),
            Made::Offer { flow, reply, .. } => self.offered(*flow, *reply, after),
            Made::Departure(Ok(departure)) => self.departed(departure, after),
            Made::Departure(Err(refusal)) => self.refused(*refusal),
            Made::Burst { asked, lent, reply } => self.burst(*asked, *lent, *reply),
        }
    }

    pub fn opened(&mut self, reply: Result<(), Refusal>) {
        match reply {
            Ok(()) => self.coverage.met("opened"),
            Err(refusal) => self.refused(refusal),
        }
    }

    pub fn offered(&mut self, flow: i64, reply: Result<(), Refusal>, after: &Scheduler) {
        if let Err(refusal) = reply {
            return self.refused(refusal);
        }
        let in_own_turn = self.serving == Some(flow);
        let newly_active = after.waiting(flow) == 1;
        self.coverage.met("accepted");
        self.coverage.met_if(in_own_turn, "arrival in its own turn");
        self.coverage.met_if(
            newly_active && self.round_runs,
            "arrival in a running round",
        );
    }

    pub fn departed(&mut self, departure: &Option<Departure>, after: &Scheduler) {
        let departure = match departure {
            Some(departure) => departure,
            None => return self.coverage.met("idle"),
        };
        self.coverage.met("departed");
        if !self.round_runs {
            self.coverage.met("round begun");
            self.coverage
                .met_if(departure.mark > 0, "round with a mark");
        }
        if after.serving().is_some() {
            self.coverage.met("turn left open");
        } else {
            self.turn_ended(departure, after);
        }
    }

    fn turn_ended(&mut self, departure: &Departure, after: &Scheduler) {
        let excess = self.sent + departure.size - departure.allowance;
        let weight = after.weight(departure.flow).expect("the flow is open");
        let ran_empty = after.waiting(departure.flow) == 0;
        let how = match excess {
            0 => "turn ended at its allowance",
            1.. => "turn ended above its allowance",
            _ => "turn ended below its allowance",
        };
        self.coverage.met(how);
        if excess > 0 {
            self.coverage.met_if(excess % weight > 0, "mark rounded up");
            self.coverage
                .met_if(ran_empty, "excess of a flow that ran empty");
        }
    }

    pub fn burst(&mut self, asked: usize, lent: usize, reply: Result<usize, Refusal>) {
        match reply {
            Err(refusal) => self.refused(refusal),
            Ok(_) if asked == 0 => self.coverage.met("burst of 0 asked"),
            Ok(made) if made == asked => self.coverage.met("burst of all asked"),
            Ok(_) => self.coverage.met("burst that stopped at idle"),
        }
        self.coverage
            .met_if(lent > asked, "burst with a longer list");
    }

    fn refused(&mut self, refusal: Refusal) {
        self.coverage.met(match refusal {
            Refusal::FlowNumber => "refusal 1",
            Refusal::Weight => "refusal 2",
            Refusal::AlreadyOpen => "refusal 3",
            Refusal::NotOpen => "refusal 4",
            Refusal::Size => "refusal 5",
            Refusal::QueueFull => "refusal 6",
            Refusal::OutgoingShort => "refusal 7",
            Refusal::StoreLength => "refusal 8",
            Refusal::ListShort => "refusal 9",
        });
    }
}
