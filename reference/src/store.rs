//! The store layer: the order layer's calls, with the packet's bytes moved alongside.

use crate::limits::{OUTGOING, STORE};
use crate::scheduler::{Departure, Refusal, Scheduler};

pub fn offer(
    scheduler: &mut Scheduler,
    store: &mut [u8],
    flow: i64,
    packet: &[u8],
) -> Result<(), Refusal> {
    check_store(store)?;
    let slot = scheduler.enqueue(flow, packet.len() as i64)?;
    let start = slot_start(flow, slot);
    store[start..start + packet.len()].copy_from_slice(packet);
    Ok(())
}

pub fn depart(
    scheduler: &mut Scheduler,
    store: &[u8],
    outgoing: &mut [u8],
) -> Result<Option<Departure>, Refusal> {
    check_store(store)?;
    if outgoing.len() < OUTGOING {
        return Err(Refusal::OutgoingShort);
    }
    let (departure, packet) = match scheduler.dequeue() {
        Some(left) => left,
        None => return Ok(None),
    };
    let start = slot_start(departure.flow, packet.slot);
    let size = packet.size as usize;
    outgoing[..size].copy_from_slice(&store[start..start + size]);
    Ok(Some(departure))
}

/// The store byte at which a slot begins.
pub fn slot_start(flow: i64, slot: i64) -> usize {
    (2048 * flow + 256 * slot) as usize
}

fn check_store(store: &[u8]) -> Result<(), Refusal> {
    if store.len() == STORE {
        Ok(())
    } else {
        Err(Refusal::StoreLength)
    }
}
