//! Event lines written with an eye on what they do.

use crate::event::Event;
use crate::limits::{FLOWS, QUEUE};
use crate::random::Random;
use crate::scheduler::Scheduler;
use std::io::Write;

/// Which sizes and weights a trace draws.
#[derive(Clone, Copy, PartialEq, Eq)]
pub enum Style {
    Plain,
    Extreme,
}

/// The sizes that one flow offers: a range is picked, then a size in it.
type Habit = &'static [(i64, i64)];

/// Flows of small packets beside flows of large ones make turns of many packets.
const HABITS: [Habit; 6] = [
    &[(1, 16)],
    &[(1, 16), (1, 16), (256, 256)],
    &[(20, 60)],
    &[(200, 256)],
    &[(1, 256)],
    &[(1, 8), (100, 256)],
];
const EXTREME_HABITS: [Habit; 3] = [&[(1, 1)], &[(256, 256)], &[(1, 1), (256, 256)]];

/// What the weights of one trace are drawn from.
const WEIGHTS: [&[i64]; 3] = [
    &[1],
    &[1, 2, 3],
    &[1, 2, 3, 4, 5, 6, 7, 8, 9, 10, 11, 12, 13, 14, 15, 16],
];
const EXTREME_WEIGHTS: &[i64] = &[1, 16];

pub struct Script {
    pub random: Random,
    pub text: Vec<u8>,
    style: Style,
    lines: usize,
    opened: Vec<i64>,
    habits: Vec<Habit>,
    /// Follows the lines, so that the next ones can aim at its queues and its turn.
    shadow: Scheduler,
}

impl Script {
    pub fn new(mut random: Random, style: Style) -> Self {
        let choices: &[Habit] = match style {
            Style::Plain => &HABITS,
            Style::Extreme => &EXTREME_HABITS,
        };
        let habits = (0..FLOWS).map(|_| random.pick(choices)).collect();
        Script {
            random,
            text: Vec::new(),
            style,
            lines: 0,
            opened: Vec::new(),
            habits,
            shadow: Scheduler::new(),
        }
    }

    // Single lines.

    fn write(&mut self, event: Event) {
        let written = match event {
            Event::Open { flow, weight } => writeln!(self.text, "flow={flow} weight={weight}"),
            Event::Arrive { flow, size } => writeln!(self.text, "arrive={flow} size={size}"),
            Event::Send { count } => writeln!(self.text, "send={count}"),
        };
        written.expect("writing to a vector succeeds");
        self.lines += 1;
    }

    fn open(&mut self, flow: i64, weight: i64) {
        self.write(Event::Open { flow, weight });
        if self.shadow.open(flow, weight).is_ok() {
            self.opened.push(flow);
        }
    }

    fn arrive(&mut self, flow: i64, size: i64) {
        self.write(Event::Arrive { flow, size });
        // A refused line is part of the trace as well.
        let _ = self.shadow.offer(flow, size);
    }

    fn arrive_as_usual(&mut self, flow: i64) {
        let (low, high) = self.random.pick(self.habits[flow as usize]);
        let size = self.random.between(low, high);
        self.arrive(flow, size);
    }

    fn send(&mut self, count: i64) {
        self.write(Event::Send { count });
        for _ in 0..count {
            if self.shadow.depart().is_none() {
                break;
            }
        }
    }

    // Beginnings and ends.

    pub fn open_some(&mut self) {
        let few = self.random.pick(&[3, 6, 12, FLOWS]);
        let count = self.random.between(1, few) as usize;
        self.open_flows(count);
    }

    pub fn open_flows(&mut self, count: usize) {
        let mut flows: Vec<i64> = (0..FLOWS).collect();
        self.random.shuffle(&mut flows);
        let weights = self.weights();
        for &flow in &flows[..count] {
            let weight = self.random.pick(weights);
            self.open(flow, weight);
        }
    }

    fn weights(&mut self) -> &'static [i64] {
        match self.style {
            Style::Plain => self.random.pick(&WEIGHTS),
            Style::Extreme => EXTREME_WEIGHTS,
        }
    }

    /// A first backlog for every open flow.
    pub fn fill(&mut self) {
        for flow in self.opened.clone() {
            for _ in 0..self.random.between(2, 6) {
                self.arrive_as_usual(flow);
            }
        }
    }

    /// Sends all that waits, and half the time meets idle.
    pub fn drain(&mut self) {
        let waiting = self.shadow.all_waiting();
        let beyond = self.random.between(0, 1);
        self.send(waiting + beyond);
    }

    // Phases of about so many lines.

    pub fn steady(&mut self, lines: usize) {
        let end = self.lines + lines;
        while self.lines < end {
            self.steady_step();
        }
    }

    /// A departure or two, then arrivals that make up for them.
    fn steady_step(&mut self) {
        let count = self.random.pick(&[1, 1, 1, 2, 2, 5]);
        self.send(count);
        for _ in 0..count + self.random.between(-1, 1) {
            let flow = self.flow_in_need();
            self.arrive_as_usual(flow);
        }
    }

    /// Often the flow being served, so that packets arrive while its turn runs.
    fn flow_in_need(&mut self) -> i64 {
        if let Some(flow) = self.shadow.serving() {
            if self.shadow.waiting(flow) < QUEUE && self.random.one_in(3) {
                return flow;
            }
        }
        let one = self.random.pick(&self.opened);
        let other = self.random.pick(&self.opened);
        if self.shadow.waiting(one) <= self.shadow.waiting(other) {
            one
        } else {
            other
        }
    }

    /// Whole queues at once, then a long send.
    pub fn bursts(&mut self, lines: usize) {
        let end = self.lines + lines;
        while self.lines < end {
            for _ in 0..=self.random.below(self.opened.len()) {
                let flow = self.random.pick(&self.opened);
                for _ in 0..self.random.between(1, QUEUE) {
                    self.arrive_as_usual(flow);
                }
            }
            self.long_send();
        }
    }

    fn long_send(&mut self) {
        let waiting = self.shadow.all_waiting();
        let count = match self.random.below(8) {
            0 => waiting,
            1 => waiting + self.random.between(1, 5),
            2 => 65_535,
            _ => self.random.between(0, waiting),
        };
        self.send(count);
    }

    /// Flows fall silent and run empty, and come back while others wait.
    pub fn onoff(&mut self, lines: usize) {
        let end = self.lines + lines;
        let mut silent = vec![false; self.opened.len()];
        while self.lines < end {
            if self.random.one_in(6) {
                let place = self.random.below(silent.len());
                silent[place] = !silent[place];
            }
            for _ in 0..self.random.between(0, 4) {
                let place = self.random.below(silent.len());
                if !silent[place] {
                    self.arrive_as_usual(self.opened[place]);
                }
            }
            let count = self.random.between(1, 3);
            self.send(count);
        }
    }

    /// Half of the steps are refused, each for a reason of its own.
    pub fn refusals(&mut self, lines: usize) {
        let end = self.lines + lines;
        while self.lines < end {
            self.refusals_step();
        }
    }

    fn refusals_step(&mut self) {
        let flow = self.random.between(0, FLOWS - 1);
        let weight = self.random.between(1, 16);
        match self.random.below(12) {
            0 => {
                let flow = self.random.pick(&[32, 33, 256, 300, 65_535]);
                let weight = self.random.pick(&[0, 1, 16, 17]);
                self.open(flow, weight);
            }
            1 => {
                let weight = self.random.pick(&[0, 17, 256, 272, 65_535]);
                self.open(flow, weight);
            }
            2 => self.open(flow, weight),
            3 => {
                let flow = self.random.pick(&[32, 33, 256, 300, 65_535]);
                let size = self.random.pick(&[0, 1, 256, 257]);
                self.arrive(flow, size);
            }
            4 => {
                let size = self.random.pick(&[0, 1, 256, 257, 512, 65_535]);
                self.arrive(flow, size);
            }
            5 if !self.opened.is_empty() => {
                let flow = self.random.pick(&self.opened);
                for _ in 0..=QUEUE {
                    self.arrive_as_usual(flow);
                }
            }
            _ if self.opened.is_empty() => self.open(flow, weight),
            6 => self.long_send(),
            _ => self.steady_step(),
        }
    }

    pub fn mixed(&mut self, lines: usize) {
        let end = self.lines + lines;
        while self.lines < end {
            let some = 20 + self.random.below(120);
            match self.random.below(5) {
                0 => self.bursts(some),
                1 => self.onoff(some),
                2 => self.refusals(some / 2),
                _ => self.steady(some),
            }
        }
    }

    // An exact length in bytes.

    /// Steady steps, then padding, to a text of exactly `length` bytes.
    pub fn fill_up_to(&mut self, length: usize) {
        // A step writes at most seven lines of at most 20 bytes.
        while self.text.len() + 200 < length {
            self.steady_step();
        }
        let shortest = "send=1\n".len();
        while length - self.text.len() > 22 {
            self.pad(shortest);
        }
        // 14 to 22 bytes are left, which two send lines of 7 to 11 bytes fill.
        let left = length - self.text.len();
        self.pad(left / 2);
        self.pad(left - left / 2);
    }

    /// One send line of so many bytes, 7 to 11.
    fn pad(&mut self, bytes: usize) {
        let (low, high) = match bytes - "send=\n".len() {
            1 => (0, 9),
            2 => (10, 99),
            3 => (100, 999),
            4 => (1_000, 9_999),
            _ => (10_000, 65_535),
        };
        let count = self.random.between(low, high);
        self.send(count);
    }
}
