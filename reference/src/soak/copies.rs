//! The buffers of random store calls as they should be, kept without the store layer.

use crate::calls::{Made, StoreCalls};
use crate::limits::{FLOWS, QUEUE};
use crate::scheduler::Departure;
use crate::store::slot_start;
use std::collections::VecDeque;

pub struct Copies {
    store: Vec<u8>,
    outgoing: Vec<u8>,
    /// Each flow's accepted and not yet departed packets.
    packets: Vec<VecDeque<Vec<u8>>>,
    /// How many packets of each flow were accepted since the last reset.
    accepted: Vec<i64>,
}

impl Copies {
    pub fn new(part: &StoreCalls) -> Self {
        Copies {
            store: part.store.clone(),
            outgoing: part.outgoing.to_vec(),
            packets: vec![VecDeque::new(); FLOWS as usize],
            accepted: vec![0; FLOWS as usize],
        }
    }

    /// Panics if a byte is not as it should be after the call.
    pub fn follow(&mut self, made: &Made, part: &StoreCalls) {
        match made {
            Made::Reset => {
                self.packets.iter_mut().for_each(VecDeque::clear);
                self.accepted.fill(0);
            }
            Made::Offer {
                flow,
                size,
                reply: Ok(()),
            } => self.accept(*flow, &part.packet[..*size as usize]),
            Made::Departure(Ok(Some(departure))) => self.release(departure),
            _ => {}
        }
        assert!(part.store == self.store, "the store is not as expected");
        assert!(
            part.outgoing[..] == self.outgoing[..],
            "outgoing is not as expected"
        );
    }

    fn accept(&mut self, flow: i64, packet: &[u8]) {
        let count = &mut self.accepted[flow as usize];
        let start = slot_start(flow, *count % QUEUE);
        self.store[start..start + packet.len()].copy_from_slice(packet);
        self.packets[flow as usize].push_back(packet.to_vec());
        *count += 1;
    }

    fn release(&mut self, departure: &Departure) {
        let packet = self.packets[departure.flow as usize]
            .pop_front()
            .expect("the departed packet was accepted");
        assert_eq!(packet.len() as i64, departure.size);
        self.outgoing[..packet.len()].copy_from_slice(&packet);
    }
}
