//! How often each call said what; some of it must be met, or the run has shown too little.

use crate::said::Said;
use std::collections::BTreeMap;
use std::fmt;

#[derive(Default)]
pub struct Met(BTreeMap<(&'static str, String), u64>);

/// As many departures as packets can wait.
const FULL: usize = 256;

/// What each call must have said at least once.
const MUST: [(&str, &[&str]); 11] = [
    ("hb_reset", &["done"]),
    ("hb_open", &["done", "refused 1", "refused 2", "refused 3"]),
    (
        "hb_offer",
        &["done", "refused 1", "refused 4", "refused 5", "refused 6"],
    ),
    ("hb_depart", &["departure", "idle"]),
    ("hb_burst", &["whole", "early", "none", "full", "refused 9"]),
    ("hb_site_reset", &["done"]),
    (
        "hb_site_open",
        &["done", "refused 1", "refused 2", "refused 3"],
    ),
    (
        "hb_site_offer",
        &[
            "done",
            "refused 8",
            "refused 1",
            "refused 4",
            "refused 5",
            "refused 6",
        ],
    ),
    (
        "hb_site_depart",
        &["departure", "idle", "refused 8", "refused 7"],
    ),
    (
        "wrapper",
        &[
            "done",
            "departure",
            "idle",
            "whole",
            "early",
            "none",
            "refused 1",
            "refused 6",
        ],
    ),
    ("null", &["list", "packet", "store", "outgoing"]),
];

impl Met {
    /// `asked` is what a burst asked for.
    pub fn said(&mut self, call: &'static str, said: Said, asked: usize) {
        self.add(
            call,
            match said {
                Said::Reset | Said::Opened | Said::Accepted { .. } => "done".to_string(),
                Said::Left { .. } => "departure".to_string(),
                Said::Idle => "idle".to_string(),
                Said::Count(_) if asked == 0 => "none".to_string(),
                Said::Count(FULL) => "full".to_string(),
                Said::Count(count) if count == asked => "whole".to_string(),
                Said::Count(_) => "early".to_string(),
                Said::Refused(number) => format!("refused {number}"),
            },
        );
    }

    /// A null pointer with length 0 was passed.
    pub fn null(&mut self, buffer: &str) {
        self.add("null", buffer.to_string());
    }

    fn add(&mut self, call: &'static str, what: String) {
        *self.0.entry((call, what)).or_insert(0) += 1;
    }

    pub fn all_met(&self) -> Result<(), String> {
        for (call, must) in MUST {
            for what in must {
                if !self.0.contains_key(&(call, what.to_string())) {
                    return Err(format!("never met: {call}, {what}"));
                }
            }
        }
        Ok(())
    }

    fn sum(&self, call: &str, what: &str) -> u64 {
        let counts = self.0.iter();
        counts
            .filter(|((c, w), _)| (call.is_empty() || *c == call) && (what.is_empty() || w == what))
            .map(|(_, n)| n)
            .sum()
    }
}

impl fmt::Display for Met {
    fn fmt(&self, out: &mut fmt::Formatter) -> fmt::Result {
        let refusals: Vec<String> = (1..=9)
            .map(|k| self.sum("", &format!("refused {k}")).to_string())
            .collect();
        write!(
            out,
            "{} departures, {} idle, refusals 1 to 9: {}, bursts whole {}, early {}, of none {}, of all 256 {}; null pointers {}; by the wrapper {}",
            self.sum("", "departure"),
            self.sum("", "idle"),
            refusals.join(" "),
            self.sum("", "whole"),
            self.sum("", "early"),
            self.sum("", "none"),
            self.sum("", "full"),
            self.sum("null", ""),
            self.sum("wrapper", ""),
        )
    }
}
