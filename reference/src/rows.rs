//! The bench sheet, run on this implementation.

use crate::cases::cases;
use crate::limits::STORE;
use crate::replay::replay;
use crate::scheduler::{allowance, raised, Refusal, Scheduler};
use crate::store;

/// A row's name and its check.
type Row = (&'static str, fn() -> bool);

/// Every row's name and whether it holds.
pub fn rows() -> Vec<(String, bool)> {
    let by_lines = cases().into_iter().map(|case| {
        let holds = replay(&case.input) == case.output;
        (case.name, holds)
    });
    let by_calls = CALL_ROWS
        .iter()
        .map(|(name, row)| (name.to_string(), row()));
    by_lines.chain(by_calls).collect()
}

/// Rows that lines cannot show, or show only from afar.
const CALL_ROWS: [Row; 8] = [
    ("row-p1 by calls", idle_after_reset),
    ("row-p8 by steps", mark_of_excess),
    ("row-p9 by steps", largest_allowance),
    ("row-p10", empty_burst),
    ("row-store", store_before_outgoing),
    ("burst-refused", burst_refused),
    ("burst-to-idle", burst_to_idle),
    ("slots-in-turn", slots_in_turn),
];

fn idle_after_reset() -> bool {
    let mut scheduler = Scheduler::new();
    let fed = scheduler.open(0, 1).is_ok() && scheduler.offer(0, 10).is_ok();
    scheduler.reset();
    fed && scheduler.depart().is_none() && scheduler == Scheduler::new()
}

fn mark_of_excess() -> bool {
    raised(0, 5, 2) == 3 && raised(0, 4, 2) == 2 && raised(0, 0, 2) == 0 && raised(0, -3, 2) == 0
}

fn largest_allowance() -> bool {
    allowance(16, 255, 0) == 4096
}

fn empty_burst() -> bool {
    let mut scheduler = Scheduler::new();
    scheduler.burst(0, &mut []) == Ok(0) && scheduler == Scheduler::new()
}

/// The store's length is checked before the outgoing buffer's, and both before idle.
fn store_before_outgoing() -> bool {
    let mut scheduler = Scheduler::new();
    let mut depart = |store: usize, outgoing: usize| {
        store::depart(&mut scheduler, &vec![0; store], &mut vec![0; outgoing])
    };
    depart(STORE - 1, 255) == Err(Refusal::StoreLength)
        && depart(STORE + 1, 256) == Err(Refusal::StoreLength)
        && depart(STORE, 255) == Err(Refusal::OutgoingShort)
        && depart(STORE, 256) == Ok(None)
}

/// The list is measured against the number asked, not against what could leave.
fn burst_refused() -> bool {
    let mut scheduler = Scheduler::new();
    let mut list = [9; 2];
    scheduler.burst(3, &mut list) == Err(Refusal::ListShort) && list == [9; 2]
}

fn burst_to_idle() -> bool {
    let mut scheduler = Scheduler::new();
    let fed = [3, 5]
        .iter()
        .all(|&flow| scheduler.open(flow, 1).is_ok() && scheduler.offer(flow, 1).is_ok());
    let mut list = [9; 4];
    fed && scheduler.burst(3, &mut list) == Ok(2) && list == [3, 5, 9, 9]
}

/// The ninth packet since reset takes slot 0 again, and only its own bytes change.
fn slots_in_turn() -> bool {
    let mut scheduler = Scheduler::new();
    let mut store = vec![0; STORE];
    let mut outgoing = [7; 256];
    let mut fed = scheduler.open(2, 1).is_ok();
    for byte in 1..=9 {
        if byte == 9 {
            fed &= store::depart(&mut scheduler, &store, &mut outgoing).is_ok();
        }
        fed &= store::offer(&mut scheduler, &mut store, 2, &[byte, byte]).is_ok();
    }
    let start = 2 * 2048;
    let slots: Vec<u8> = (0..8).map(|slot| store[start + 256 * slot]).collect();
    let written = store.iter().filter(|&&byte| byte != 0).count();
    fed && slots == [9, 2, 3, 4, 5, 6, 7, 8] && written == 16 && outgoing[..3] == [1, 1, 7]
}
