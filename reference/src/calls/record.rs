//! What was replied: a running checksum, and how often each reply was given.

use super::Made;
use crate::scheduler::Departure;
use std::io::{self, Write};

/// The last of the numbers that CALLS.md gives to replies.
const LAST: usize = 15;

pub struct Record {
    pub check: u64,
    /// By the reply's number, from 1 on.
    counts: [u64; LAST + 1],
}

impl Record {
    pub fn new() -> Self {
        Record {
            check: 2_166_136_261,
            counts: [0; LAST + 1],
        }
    }

    pub fn add(&mut self, made: &Made) {
        let number = made.number();
        self.counts[usize::from(number)] += 1;
        self.fold(u64::from(number));
        match made {
            Made::Departure(Ok(Some(departure))) => self.fold_departure(departure),
            Made::Burst {
                reply: Ok(count), ..
            } => self.fold_two(*count as u64),
            _ => {}
        }
    }

    fn fold_departure(&mut self, departure: &Departure) {
        self.fold(departure.flow as u64);
        self.fold_two(departure.size as u64);
        self.fold(departure.mark as u64);
        self.fold_two(departure.allowance as u64);
    }

    /// A number of two bytes, the lower first.
    fn fold_two(&mut self, value: u64) {
        self.fold(value % 256);
        self.fold(value / 256);
    }

    pub fn fold_all(&mut self, bytes: &[u8]) {
        for &byte in bytes {
            self.fold(u64::from(byte));
        }
    }

    fn fold(&mut self, value: u64) {
        self.check = (self.check * 16_777_619 + value) % (1 << 32);
    }

    pub fn print_counts(&self, part: &str, output: &mut impl Write) -> io::Result<()> {
        write!(output, "{part} replies")?;
        for count in &self.counts[1..] {
            write!(output, " {count}")?;
        }
        writeln!(output)
    }
}
