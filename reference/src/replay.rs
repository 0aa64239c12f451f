//! The replay: event lines in, departures out.

use crate::event::{events, Event};
use crate::limits::REPLAY_INPUT;
use crate::scheduler::{Departure, Scheduler};
use std::fmt::Write;

/// What the replay prints for an input. One byte past the limit is enough to see it is too long.
pub fn replay(input: &[u8]) -> String {
    replayed(input).output
}

/// What came of an input.
#[derive(Default)]
pub struct Replayed {
    pub output: String,
    pub departures: Vec<Departure>,
    /// The line that is no event, from 1; 0 for too long an input.
    pub bad: Option<usize>,
}

pub fn replayed(input: &[u8]) -> Replayed {
    let mut replay = Replay::default();
    if input.len() > REPLAY_INPUT {
        replay.end_badly(0);
        return replay.so_far;
    }
    for (index, event) in events(input).enumerate() {
        let line = index + 1;
        match event {
            Some(event) => replay.run(event, line),
            None => {
                replay.end_badly(line);
                break;
            }
        }
    }
    replay.so_far
}

#[derive(Default)]
struct Replay {
    scheduler: Scheduler,
    so_far: Replayed,
}

impl Replay {
    fn run(&mut self, event: Event, line: usize) {
        let reply = match event {
            Event::Open { flow, weight } => self.scheduler.open(flow, weight),
            Event::Arrive { flow, size } => self.scheduler.offer(flow, size),
            Event::Send { count } => {
                self.send(count);
                Ok(())
            }
        };
        if let Err(refusal) = reply {
            let number = refusal.number();
            self.print(format_args!("refused={number} line={line}"));
        }
    }

    fn send(&mut self, count: i64) {
        for _ in 0..count {
            let so_far = self.so_far.departures.len();
            let left = match self.scheduler.depart() {
                Some(departure) => departure,
                None => return self.print(format_args!("idle={so_far}")),
            };
            self.so_far.departures.push(left);
            self.print(format_args!(
                "sent={} flow={} size={} mark={} allow={}",
                so_far + 1,
                left.flow,
                left.size,
                left.mark,
                left.allowance
            ));
        }
    }

    fn end_badly(&mut self, line: usize) {
        self.print(format_args!("bad={line}"));
        self.so_far.bad = Some(line);
    }

    fn print(&mut self, line: std::fmt::Arguments) {
        writeln!(self.so_far.output, "{line}").expect("writing to a string succeeds");
    }
}
