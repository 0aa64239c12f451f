//! The order layer: source document 002's Fig. 1, with document 01's weights and rounding.
//!
//! Names follow Fig. 1. All numbers are signed, since an excess may be negative.

mod rules;

use crate::limits::{FLOWS, MAX_SIZE, MAX_WEIGHT, QUEUE};
use std::collections::{BTreeMap, VecDeque};

/// Why a call was refused; the value is the paper's number.
#[derive(Clone, Copy, Debug, PartialEq, Eq)]
pub enum Refusal {
    FlowNumber = 1,
    Weight = 2,
    AlreadyOpen = 3,
    NotOpen = 4,
    Size = 5,
    QueueFull = 6,
    OutgoingShort = 7,
    StoreLength = 8,
    ListShort = 9,
}

impl Refusal {
    pub fn number(self) -> u8 {
        self as u8
    }
}

#[derive(Clone, Copy, Debug, PartialEq, Eq)]
pub struct Departure {
    pub flow: i64,
    pub size: i64,
    pub mark: i64,
    pub allowance: i64,
}

/// A waiting packet, and the slot that its bytes take in a store.
#[derive(Clone, Copy, Debug, PartialEq, Eq)]
pub struct Packet {
    pub size: i64,
    pub slot: i64,
}

/// An open flow. It was never opened if the scheduler has no entry for it.
#[derive(Clone, Debug, PartialEq, Eq)]
struct Flow {
    weight: i64,
    queue: VecDeque<Packet>,
    surplus: i64,
    next_slot: i64,
}

/// One run of Fig. 1's inner loop, suspended between two packets.
#[derive(Clone, Copy, Debug, PartialEq, Eq)]
struct Turn {
    flow: i64,
    allowance: i64,
    sent: i64,
}

#[derive(Clone, Debug, Default, PartialEq, Eq)]
pub struct Scheduler {
    flows: BTreeMap<i64, Flow>,
    active_list: VecDeque<i64>,
    visit_count: usize,
    /// The round's mark: what the round before it left as its largest excess per weight.
    previous_max_sc: i64,
    /// The running mark.
    max_sc: i64,
    turn: Option<Turn>,
}

/// Weight x (1 + mark) - surplus.
pub fn allowance(weight: i64, mark: i64, surplus: i64) -> i64 {
    weight * (1 + mark) - surplus
}

/// The running mark after a turn that ended with this excess; the quotient is rounded up.
pub fn raised(running_mark: i64, excess: i64, weight: i64) -> i64 {
    if excess < 0 {
        return running_mark;
    }
    running_mark.max((excess + weight - 1) / weight)
}

impl Scheduler {
    pub fn new() -> Self {
        Self::default()
    }

    pub fn reset(&mut self) {
        *self = Self::new();
    }

    pub fn open(&mut self, flow: i64, weight: i64) -> Result<(), Refusal> {
        if !(0..FLOWS).contains(&flow) {
            return Err(Refusal::FlowNumber);
        }
        if !(1..=MAX_WEIGHT).contains(&weight) {
            return Err(Refusal::Weight);
        }
        if self.flows.contains_key(&flow) {
            return Err(Refusal::AlreadyOpen);
        }
        let fresh = Flow {
            weight,
            queue: VecDeque::new(),
            surplus: 0,
            next_slot: 0,
        };
        self.flows.insert(flow, fresh);
        Ok(())
    }

    pub fn offer(&mut self, flow: i64, size: i64) -> Result<(), Refusal> {
        self.enqueue(flow, size).map(|_slot| ())
    }

    pub fn depart(&mut self) -> Option<Departure> {
        self.dequeue().map(|(departure, _packet)| departure)
    }

    /// Up to `asked` departures, their flow numbers written from the start of `list`.
    pub fn burst(&mut self, asked: usize, list: &mut [u8]) -> Result<usize, Refusal> {
        if list.len() < asked {
            return Err(Refusal::ListShort);
        }
        for (made, entry) in list[..asked].iter_mut().enumerate() {
            match self.depart() {
                Some(departure) => *entry = departure.flow as u8,
                None => return Ok(made),
            }
        }
        Ok(asked)
    }

    /// Fig. 1's Enqueue. Gives the slot that the accepted packet takes.
    pub fn enqueue(&mut self, flow: i64, size: i64) -> Result<i64, Refusal> {
        if !(0..FLOWS).contains(&flow) {
            return Err(Refusal::FlowNumber);
        }
        // Asked before the packet joins, and true of the flow being served as well:
        // an arrival in mid-turn must not put it in line again.
        let in_active_list = self.exists_in_active_list(flow);
        let entry = self.flows.get_mut(&flow).ok_or(Refusal::NotOpen)?;
        if !(1..=MAX_SIZE).contains(&size) {
            return Err(Refusal::Size);
        }
        if entry.queue.len() as i64 == QUEUE {
            return Err(Refusal::QueueFull);
        }

        let slot = entry.next_slot;
        entry.next_slot = (slot + 1) % QUEUE;
        entry.queue.push_back(Packet { size, slot });
        if !in_active_list {
            entry.surplus = 0;
            self.active_list.push_back(flow);
        }
        Ok(slot)
    }

    /// Fig. 1's Dequeue up to and including its next packet; none if nothing waits.
    pub fn dequeue(&mut self) -> Option<(Departure, Packet)> {
        let mut turn = match self.turn.take() {
            Some(suspended) => suspended,
            None => self.begin_turn()?,
        };
        let queue = &mut self.flow_mut(turn.flow).queue;
        let packet = queue.pop_front().expect("a turn's flow has a packet");
        let more = !queue.is_empty();

        turn.sent += packet.size;
        if more && turn.sent < turn.allowance {
            self.turn = Some(turn);
        } else {
            self.end_turn(turn);
        }

        let departure = Departure {
            flow: turn.flow,
            size: packet.size,
            mark: self.previous_max_sc,
            allowance: turn.allowance,
        };
        Some((departure, packet))
    }

    /// The part of Fig. 1's outer loop before the inner one.
    fn begin_turn(&mut self) -> Option<Turn> {
        // With nobody in line no round starts, so an idle call keeps the running mark.
        if self.active_list.is_empty() {
            return None;
        }
        if self.visit_count == 0 {
            self.previous_max_sc = self.max_sc;
            self.visit_count = self.active_list.len();
            self.max_sc = 0;
        }
        let mark = self.previous_max_sc;
        let flow = self.active_list.pop_front()?;
        let entry = self.flow_mut(flow);
        let allowance = allowance(entry.weight, mark, entry.surplus);
        entry.surplus = 0;
        Some(Turn {
            flow,
            allowance,
            sent: 0,
        })
    }

    /// The part of Fig. 1's outer loop after the inner one.
    fn end_turn(&mut self, turn: Turn) {
        let excess = turn.sent - turn.allowance;
        let entry = self.flow_mut(turn.flow);
        let weight = entry.weight;
        let waiting = !entry.queue.is_empty();
        entry.surplus = if waiting { excess } else { 0 };

        // The excess counts even if the flow ran empty and keeps no surplus.
        self.max_sc = raised(self.max_sc, excess, weight);
        if waiting {
            self.active_list.push_back(turn.flow);
        }
        self.visit_count -= 1;
    }

    fn exists_in_active_list(&self, flow: i64) -> bool {
        self.serving() == Some(flow) || self.active_list.contains(&flow)
    }

    fn flow_mut(&mut self, flow: i64) -> &mut Flow {
        self.flows.get_mut(&flow).expect("an active flow is open")
    }

    /// The flow of the open turn.
    pub fn serving(&self) -> Option<i64> {
        self.turn.map(|turn| turn.flow)
    }

    /// What the open turn has sent so far; 0 where none is open.
    pub fn sent_in_turn(&self) -> i64 {
        self.turn.map_or(0, |turn| turn.sent)
    }

    /// Whether visits are left in the round.
    pub fn round_runs(&self) -> bool {
        self.visit_count > 0
    }

    pub fn weight(&self, flow: i64) -> Option<i64> {
        self.flows.get(&flow).map(|entry| entry.weight)
    }

    pub fn surplus(&self, flow: i64) -> i64 {
        self.flows.get(&flow).map_or(0, |entry| entry.surplus)
    }

    /// How many packets of the flow wait.
    pub fn waiting(&self, flow: i64) -> i64 {
        self.flows
            .get(&flow)
            .map_or(0, |entry| entry.queue.len() as i64)
    }

    pub fn all_waiting(&self) -> i64 {
        self.flows.keys().map(|&flow| self.waiting(flow)).sum()
    }
}
