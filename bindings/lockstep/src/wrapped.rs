//! States of both layers driven by the safe wrapper.

use crate::draws::{Draws, Kind, Phase};
use crate::limits::STORE;
use crate::met::Met;
use crate::said::{Said, Slots};
use crate::scheduler::{Departure, Scheduler};
use crate::store;
use crate::twin::{Twin, Twins};
use houghbreeze::{Next, Refusal, Site, OUTGOING_MIN};
use std::convert::TryInto;

const PAIRS: usize = 4;

/// A list has so many bytes at most.
const LIST: usize = 12;

struct Driven<S> {
    state: S,
    witness: Scheduler,
    slots: Slots,
    phase: Phase,
}

pub struct Wrapped {
    schedulers: Vec<Driven<houghbreeze::Scheduler>>,
    /// Each with the independent program's store.
    sites: Vec<(Driven<Site<'static>>, Vec<u8>)>,
    list: Twin,
    packet: Twins,
    outgoing: Twin,
}

impl<S> Driven<S> {
    fn new(state: S, draws: &mut Draws) -> Self {
        Driven {
            state,
            witness: Scheduler::new(),
            slots: Slots::default(),
            phase: draws.phase(),
        }
    }
}

impl Wrapped {
    pub fn new(draws: &mut Draws) -> Self {
        let schedulers = (0..PAIRS)
            .map(|_| Driven::new(houghbreeze::Scheduler::new(), draws))
            .collect();
        let sites = (0..PAIRS).map(|_| {
            let store: &'static mut [u8; STORE] = Box::leak(Box::new([0; STORE]));
            (Driven::new(Site::new(store), draws), vec![0; STORE])
        });
        Wrapped {
            schedulers,
            sites: sites.collect(),
            list: Twin::new(LIST, draws),
            packet: Twins::new(STORE + 1, draws),
            outgoing: Twin::new(OUTGOING_MIN, draws),
        }
    }

    pub fn call(&mut self, draws: &mut Draws, met: &mut Met) -> Result<(), String> {
        let place = draws.below(PAIRS);
        let (found, said, asked) = if draws.one_in(2) {
            self.scheduler_call(place, draws)
        } else {
            self.site_call(place, draws)
        };
        met.said("wrapper", said, asked);
        if found != said {
            return Err(format!("the wrapper says {found:?}, and must say {said:?}"));
        }
        if !(self.list.agrees() && self.outgoing.agrees()) {
            return Err(format!(
                "the wrapper, {said:?}: a lent buffer differs, or a byte around it"
            ));
        }
        Ok(())
    }

    /// What the wrapper says, what it must say, and how many departures a burst asked for.
    fn scheduler_call(&mut self, place: usize, draws: &mut Draws) -> (Said, Said, usize) {
        let Driven {
            state,
            witness,
            slots,
            phase,
        } = &mut self.schedulers[place];
        match draws.kind(phase) {
            Kind::Reset => {
                state.reset();
                witness.reset();
                (Said::Reset, slots.reset(), 0)
            }
            Kind::Open => {
                let (flow, weight) = (draws.flow(phase), draws.weight());
                (
                    opened(state.open(flow, weight)),
                    slots.opened(witness.open(flow as i64, weight as i64)),
                    0,
                )
            }
            Kind::Offer => {
                let (flow, size) = (draws.flow(phase), draws.size());
                (
                    offered(state.offer(flow, size)),
                    slots.offered(flow as i64, witness.offer(flow as i64, size as i64)),
                    0,
                )
            }
            Kind::Depart => (
                departed(state.depart()),
                slots.departed(Ok(witness.depart())),
                0,
            ),
            Kind::Burst | Kind::Drain => {
                let length = draws.below(LIST);
                let found = Said::Count(state.burst(self.list.lent(length)));
                let told = witness.burst(length, self.list.twin(length));
                (found, slots.counted(self.list.twin(length), told), length)
            }
        }
    }

    fn site_call(&mut self, place: usize, draws: &mut Draws) -> (Said, Said, usize) {
        let (
            Driven {
                state,
                witness,
                slots,
                phase,
            },
            twin,
        ) = &mut self.sites[place];
        match draws.kind(phase) {
            Kind::Reset => {
                state.reset();
                witness.reset();
                (Said::Reset, slots.reset(), 0)
            }
            Kind::Open => {
                let (flow, weight) = (draws.flow(phase), draws.weight());
                (
                    opened(state.open(flow, weight)),
                    slots.opened(witness.open(flow as i64, weight as i64)),
                    0,
                )
            }
            Kind::Offer => {
                let (flow, length) = (draws.flow(phase), draws.length());
                let packet = self.packet.of(length);
                packet.fill(length.min(512), draws);
                let found = offered(state.offer(flow, packet.lent(length)));
                (
                    found,
                    slots.offered(
                        flow as i64,
                        store::offer(witness, twin, flow as i64, packet.twin(length)),
                    ),
                    0,
                )
            }
            Kind::Depart | Kind::Burst | Kind::Drain => {
                let outgoing = self
                    .outgoing
                    .lent(OUTGOING_MIN)
                    .try_into()
                    .expect("the outgoing buffer has its length");
                let found = departed(state.depart(outgoing));
                (
                    found,
                    slots.departed(store::depart(
                        witness,
                        twin,
                        self.outgoing.twin(OUTGOING_MIN),
                    )),
                    0,
                )
            }
        }
    }
}

fn opened(reply: Result<(), Refusal>) -> Said {
    reply.map_or_else(refused, |()| Said::Opened)
}

fn offered(reply: Result<u8, Refusal>) -> Said {
    reply.map_or_else(refused, |slot| Said::Accepted {
        slot: i64::from(slot),
    })
}

fn departed(reply: Next) -> Said {
    match reply {
        Next::Idle => Said::Idle,
        Next::Departure {
            flow,
            size,
            mark,
            allowance,
            slot,
        } => {
            let (flow, size, mark, allowance) =
                (flow.into(), size.into(), mark.into(), allowance.into());
            Said::Left {
                departure: Departure {
                    flow,
                    size,
                    mark,
                    allowance,
                },
                slot: slot.into(),
            }
        }
    }
}

fn refused(refusal: Refusal) -> Said {
    Said::Refused(refusal as u8)
}
