//! Houghbreeze from Rust. References rule out what the C header can only ask for: a pointer that is not valid, buffers that overlap, two calls at once on
//! one state, a store that goes with two sites, an old copy of a site used again. Refusals 7, 8 and 9 cannot come about: the arrays have their lengths.
//!
//! ```compile_fail
//! let mut store = [0; houghbreeze::STORE_SIZE];
//! let first = houghbreeze::Site::new(&mut store);
//! let second = houghbreeze::Site::new(&mut store); // the store is the first site's
//! drop((first, second));
//! ```
//!
//! ```compile_fail
//! let site: houghbreeze::Site = todo!();
//! let old = site.clone(); // there is no old copy to go back to
//! ```
#![cfg_attr(not(test), no_std)]

pub mod raw;
#[cfg(test)]
mod tests;

pub use raw::{OUTGOING_MIN, STORE_SIZE};

/// Why a call changed nothing, with the header's number.
#[derive(Clone, Copy, Debug, PartialEq, Eq)]
pub enum Refusal {
    NoSuchFlow = 1,
    BadWeight = 2,
    OpenAlready = 3,
    NotOpen = 4,
    BadSize = 5,
    QueueFull = 6,
}

/// What a departure call says.
#[derive(Clone, Copy, Debug, PartialEq, Eq)]
pub enum Next {
    Departure {
        flow: u8,
        size: u16,
        mark: u16,
        allowance: u16,
        slot: u8,
    },
    Idle,
}

/// Knows packet sizes only.
pub struct Scheduler(raw::hb_scheduler);

/// Also has the packets' bytes, in the one store that it holds.
pub struct Site<'a> {
    state: raw::hb_site,
    store: &'a mut [u8; STORE_SIZE],
}

// Every `unsafe` is below, each for the same reason: the pointers are made of references, so they are valid for the lengths beside them, lie apart and
// are nobody else's for the whole call; and a state is new or what an earlier call left, since no one else can reach it.

impl Scheduler {
    /// No flow open, nothing waits.
    pub const fn new() -> Self {
        Scheduler(raw::hb_scheduler::NEW)
    }

    pub fn reset(&mut self) {
        unsafe { raw::hb_reset(&mut self.0) }
    }

    pub fn open(&mut self, flow: usize, weight: usize) -> Result<(), Refusal> {
        accepted(unsafe { raw::hb_open(&mut self.0, flow, weight) }).map(|_slot| ())
    }

    /// Gives the packet's slot.
    pub fn offer(&mut self, flow: usize, size: usize) -> Result<u8, Refusal> {
        accepted(unsafe { raw::hb_offer(&mut self.0, flow, size) })
    }

    pub fn depart(&mut self) -> Next {
        next(unsafe { raw::hb_depart(&mut self.0) })
    }

    /// As many departures as the list has room for, or fewer if none waits any more; gives their number.
    pub fn burst(&mut self, list: &mut [u8]) -> usize {
        let reply =
            unsafe { raw::hb_burst(&mut self.0, list.len(), list.as_mut_ptr(), list.len()) };
        usize::from(reply.count)
    }
}

impl<'a> Site<'a> {
    /// No flow open, nothing waits. What lies in the store does not matter.
    pub fn new(store: &'a mut [u8; STORE_SIZE]) -> Self {
        Site {
            state: raw::hb_site::NEW,
            store,
        }
    }

    pub fn reset(&mut self) {
        unsafe { raw::hb_site_reset(&mut self.state) }
    }

    pub fn open(&mut self, flow: usize, weight: usize) -> Result<(), Refusal> {
        accepted(unsafe { raw::hb_site_open(&mut self.state, flow, weight) }).map(|_slot| ())
    }

    /// Gives the packet's slot.
    pub fn offer(&mut self, flow: usize, packet: &[u8]) -> Result<u8, Refusal> {
        let (state, store) = (&mut self.state, self.store.as_mut_ptr());
        accepted(unsafe {
            raw::hb_site_offer(
                state,
                flow,
                packet.as_ptr(),
                packet.len(),
                store,
                STORE_SIZE,
            )
        })
    }

    /// The packet's bytes go to the start of `outgoing`.
    pub fn depart(&mut self, outgoing: &mut [u8; OUTGOING_MIN]) -> Next {
        let (state, store) = (&mut self.state, self.store.as_ptr());
        next(unsafe {
            raw::hb_site_depart(
                state,
                store,
                STORE_SIZE,
                outgoing.as_mut_ptr(),
                OUTGOING_MIN,
            )
        })
    }
}

impl Default for Scheduler {
    fn default() -> Self {
        Scheduler::new()
    }
}

fn accepted(reply: raw::hb_reply) -> Result<u8, Refusal> {
    match reply.refusal {
        0 => Ok(reply.slot as u8),
        1 => Err(Refusal::NoSuchFlow),
        2 => Err(Refusal::BadWeight),
        3 => Err(Refusal::OpenAlready),
        4 => Err(Refusal::NotOpen),
        5 => Err(Refusal::BadSize),
        _ => Err(Refusal::QueueFull),
    }
}

fn next(reply: raw::hb_reply) -> Next {
    let raw::hb_reply {
        kind,
        flow,
        size,
        mark,
        allowance,
        slot,
        ..
    } = reply;
    if kind == raw::HB_DEPARTURE {
        Next::Departure {
            flow: flow as u8,
            size,
            mark,
            allowance,
            slot: slot as u8,
        }
    } else {
        Next::Idle
    }
}
