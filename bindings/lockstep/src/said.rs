//! What a call says, in one form for the archive's reply, the wrapper's and the independent program's.

use crate::scheduler::{Departure, Refusal};
use houghbreeze::raw::{self, hb_reply};
use std::collections::BTreeMap;

#[derive(Clone, Copy, Debug, PartialEq, Eq)]
pub enum Said {
    Reset,
    Opened,
    Accepted { slot: i64 },
    Left { departure: Departure, slot: i64 },
    Idle,
    Count(usize),
    Refused(u8),
}

impl Said {
    pub fn changes_nothing(self) -> bool {
        matches!(self, Said::Idle | Said::Refused(_) | Said::Count(0))
    }

    /// All the numbers that the header's reply must have; reset has none.
    pub fn reply(self) -> hb_reply {
        let none = hb_reply::default();
        match self {
            Said::Reset | Said::Opened => none,
            Said::Accepted { slot } => hb_reply {
                slot: slot as u16,
                ..none
            },
            Said::Left { departure, slot } => hb_reply {
                kind: raw::HB_DEPARTURE,
                flow: departure.flow as u16,
                size: departure.size as u16,
                mark: departure.mark as u16,
                allowance: departure.allowance as u16,
                slot: slot as u16,
                ..none
            },
            Said::Idle => hb_reply {
                kind: raw::HB_IDLE,
                ..none
            },
            Said::Count(count) => hb_reply {
                kind: raw::HB_COUNT,
                count: count as u16,
                ..none
            },
            Said::Refused(number) => hb_reply {
                kind: raw::HB_REFUSED,
                refusal: u16::from(number),
                ..none
            },
        }
    }
}

/// Document 01's rule of slots, by counting: a flow's first packet since reset takes slot 0, each later one the next, and they leave in their order.
#[derive(Default)]
pub struct Slots {
    joined: BTreeMap<i64, i64>,
    left: BTreeMap<i64, i64>,
}

impl Slots {
    pub fn reset(&mut self) -> Said {
        *self = Slots::default();
        Said::Reset
    }

    pub fn opened(&self, reply: Result<(), Refusal>) -> Said {
        reply.map_or_else(refused, |()| Said::Opened)
    }

    pub fn offered(&mut self, flow: i64, reply: Result<(), Refusal>) -> Said {
        reply.map_or_else(refused, |()| Said::Accepted {
            slot: next(&mut self.joined, flow),
        })
    }

    pub fn departed(&mut self, reply: Result<Option<Departure>, Refusal>) -> Said {
        match reply {
            Ok(Some(departure)) => Said::Left {
                departure,
                slot: next(&mut self.left, departure.flow),
            },
            Ok(None) => Said::Idle,
            Err(refusal) => refused(refusal),
        }
    }

    /// What left by a burst, as the list tells.
    pub fn counted(&mut self, list: &[u8], reply: Result<usize, Refusal>) -> Said {
        match reply {
            Ok(count) => {
                for &flow in &list[..count] {
                    next(&mut self.left, i64::from(flow));
                }
                Said::Count(count)
            }
            Err(refusal) => refused(refusal),
        }
    }
}

fn next(count: &mut BTreeMap<i64, i64>, flow: i64) -> i64 {
    let so_far = count.entry(flow).or_insert(0);
    *so_far += 1;
    (*so_far - 1) % 8
}

fn refused(refusal: Refusal) -> Said {
    Said::Refused(refusal.number())
}
