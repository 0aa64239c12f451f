//! Document 01's example on sizes, a packet through a store, and each refusal that is left.

use super::*;

fn departure(flow: u8, size: u16, mark: u16, allowance: u16, slot: u8) -> Next {
    Next::Departure {
        flow,
        size,
        mark,
        allowance,
        slot,
    }
}

#[test]
fn five_departures() {
    let mut s = Scheduler::new();
    assert_eq!(s.open(0, 1), Ok(()));
    assert_eq!(s.open(1, 2), Ok(()));
    for (flow, size, slot) in [(0, 100, 0), (0, 50, 1), (1, 30, 0), (1, 200, 1), (1, 10, 2)] {
        assert_eq!(s.offer(flow, size), Ok(slot));
    }
    assert_eq!(s.depart(), departure(0, 100, 0, 1, 0));
    assert_eq!(s.depart(), departure(1, 30, 0, 2, 0));
    assert_eq!(s.depart(), departure(0, 50, 99, 1, 1));
    assert_eq!(s.depart(), departure(1, 200, 99, 172, 1));
    let mut list = [7; 3];
    assert_eq!(s.burst(&mut list), 1);
    assert_eq!(list, [1, 7, 7]);
    assert_eq!(s.burst(&mut []), 0);
    assert_eq!(s.depart(), Next::Idle);
    s.reset();
    assert_eq!(s.open(0, 1), Ok(()));
}

#[test]
fn bytes_come_out_as_they_went_in() {
    let mut store = [0xee; STORE_SIZE];
    let mut outgoing = [0; OUTGOING_MIN];
    let mut site = Site::new(&mut store);
    assert_eq!(site.open(3, 1), Ok(()));
    assert_eq!(site.offer(3, b"door closed"), Ok(0));
    assert_eq!(site.offer(3, &[9; 256]), Ok(1));
    assert_eq!(site.depart(&mut outgoing), departure(3, 11, 0, 1, 0));
    assert_eq!(&outgoing[..12], b"door closed\0");
    site.reset();
    assert_eq!(site.depart(&mut outgoing), Next::Idle);
    drop(site);
    assert_eq!(&store[6144..6156], b"door closed\xee");
}

#[test]
fn refusals() {
    let mut s = Scheduler::default();
    assert_eq!(s.open(32, 0), Err(Refusal::NoSuchFlow));
    assert_eq!(s.open(0, 17), Err(Refusal::BadWeight));
    assert_eq!(s.offer(0, 0), Err(Refusal::NotOpen));
    assert_eq!(s.open(0, 16), Ok(()));
    assert_eq!(s.open(0, 16), Err(Refusal::OpenAlready));
    assert_eq!(s.offer(0, usize::MAX), Err(Refusal::BadSize));
    for slot in 0..8 {
        assert_eq!(s.offer(0, 1), Ok(slot));
    }
    assert_eq!(s.offer(0, 1), Err(Refusal::QueueFull));
    assert_eq!(Refusal::QueueFull as u8, 6);
}
