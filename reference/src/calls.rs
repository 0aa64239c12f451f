//! The random calls that CALLS.md defines, on both layers.

mod draws;
mod order;
mod record;
mod store;

pub use order::OrderCalls;
pub use store::StoreCalls;

use crate::limits::STORE;
use crate::scheduler::{Departure, Refusal, Scheduler};
use record::Record;
use std::io::{self, Write};

const CALLS_PER_LINE: u32 = 1000;

/// A call that was made, and its reply.
pub enum Made {
    Reset,
    Open(Result<(), Refusal>),
    Offer {
        flow: i64,
        size: i64,
        reply: Result<(), Refusal>,
    },
    Departure(Result<Option<Departure>, Refusal>),
    Burst {
        asked: usize,
        lent: usize,
        reply: Result<usize, Refusal>,
    },
}

impl Made {
    pub fn refusal(&self) -> Option<Refusal> {
        match self {
            Made::Reset => None,
            Made::Open(reply) | Made::Offer { reply, .. } => reply.err(),
            Made::Departure(reply) => reply.err(),
            Made::Burst { reply, .. } => reply.err(),
        }
    }

    /// The number that CALLS.md gives to the reply.
    fn number(&self) -> u8 {
        if let Some(refusal) = self.refusal() {
            return refusal.number();
        }
        match self {
            Made::Reset => 10,
            Made::Open(_) => 11,
            Made::Offer { .. } => 12,
            Made::Departure(Ok(Some(_))) => 13,
            Made::Departure(_) => 14,
            Made::Burst { .. } => 15,
        }
    }
}

/// The calls of one layer.
pub trait Part {
    const NAME: &'static str;

    fn call(&mut self) -> Made;

    /// The whole of the buffer that was lent to this call to be written in, if one was.
    fn lent(&self, made: &Made) -> &[u8];

    /// The buffer that is looked at with every line.
    fn kept(&self) -> &[u8];
}

pub fn run(seed: u32, calls: u32, output: &mut impl Write) -> io::Result<()> {
    run_part(&mut OrderCalls::new(seed), calls, output)?;
    run_part(&mut StoreCalls::new(seed), calls, output)?;
    let number = short_store_and_outgoing().number();
    writeln!(output, "row={number}")
}

fn run_part<P: Part>(part: &mut P, calls: u32, output: &mut impl Write) -> io::Result<()> {
    let mut record = Record::new();
    for n in 1..=calls {
        let made = part.call();
        record.add(&made);
        record.fold_all(part.lent(&made));
        if n % CALLS_PER_LINE == 0 || n == calls {
            record.fold_all(part.kept());
            let (name, check) = (P::NAME, record.check);
            writeln!(output, "{name} calls={n} check={check}")?;
        }
    }
    record.print_counts(P::NAME, output)
}

/// The bench sheet's row on the store's length.
fn short_store_and_outgoing() -> Made {
    let mut scheduler = Scheduler::new();
    let (store, mut outgoing) = (vec![0; STORE - 1], [0; 255]);
    Made::Departure(crate::store::depart(&mut scheduler, &store, &mut outgoing))
}
