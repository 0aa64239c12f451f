//! Random calls of the order layer.

use super::draws::{Draws, Kind, Numbers};
use super::{Made, Part};
use crate::scheduler::Scheduler;
use std::cmp::min;

const LIST: usize = 272;

pub struct OrderCalls {
    pub scheduler: Scheduler,
    pub list: [u8; LIST],
    draws: Draws,
}

impl OrderCalls {
    pub fn new(seed: u32) -> Self {
        OrderCalls {
            scheduler: Scheduler::new(),
            list: std::array::from_fn(|i| (5 * i) as u8),
            draws: Draws::new(seed),
        }
    }

    fn burst(&mut self, numbers: &Numbers) -> Made {
        let asked = numbers.asked;
        let lent = min(numbers.list, LIST);
        let reply = self.scheduler.burst(asked, &mut self.list[..lent]);
        Made::Burst { asked, lent, reply }
    }
}

impl Part for OrderCalls {
    const NAME: &'static str = "order";

    fn call(&mut self) -> Made {
        let numbers = self.draws.next();
        match numbers.kind {
            Kind::Reset => {
                self.scheduler.reset();
                Made::Reset
            }
            Kind::Open => Made::Open(self.scheduler.open(numbers.flow, numbers.weight)),
            Kind::Offer => {
                let Numbers { flow, size, .. } = numbers;
                let reply = self.scheduler.offer(flow, size);
                Made::Offer { flow, size, reply }
            }
            Kind::Departure => Made::Departure(Ok(self.scheduler.depart())),
            Kind::Burst => self.burst(&numbers),
        }
    }

    fn lent(&self, made: &Made) -> &[u8] {
        match made {
            Made::Burst { .. } => &self.list,
            _ => &[],
        }
    }

    fn kept(&self) -> &[u8] {
        &self.list
    }
}
