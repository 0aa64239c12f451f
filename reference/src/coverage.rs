//! What random runs have brought about, to see that they reach the corners.

use std::collections::BTreeMap;

/// How often each thing was met, of a fixed list of things that a run must meet.
pub struct Coverage {
    run: String,
    counts: BTreeMap<&'static str, u64>,
}

impl Coverage {
    pub fn new(run: String, expected: &[&'static str]) -> Self {
        Coverage {
            run,
            counts: expected.iter().map(|&thing| (thing, 0)).collect(),
        }
    }

    /// Panics at a thing that the run was not expected to meet.
    pub fn met(&mut self, thing: &'static str) {
        let count = self.counts.get_mut(thing);
        *count.unwrap_or_else(|| panic!("{}: {thing} is not expected", self.run)) += 1;
    }

    pub fn met_if(&mut self, holds: bool, thing: &'static str) {
        if holds {
            self.met(thing);
        }
    }

    pub fn is_whole(&self) -> bool {
        self.missing().next().is_none()
    }

    fn missing(&self) -> impl Iterator<Item = &'static str> + '_ {
        let never = self.counts.iter().filter(|(_, &count)| count == 0);
        never.map(|(&thing, _)| thing)
    }

    /// One line with all counts, and one with what was never met.
    pub fn print(&self) {
        let counts: Vec<String> = self
            .counts
            .iter()
            .map(|(thing, count)| format!("{thing} {count}"))
            .collect();
        println!("{}: {}", self.run, counts.join(", "));
        let missing: Vec<&str> = self.missing().collect();
        if !missing.is_empty() {
            println!("{} never met: {}", self.run, missing.join(", "));
        }
    }
}
