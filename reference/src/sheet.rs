//! The share sheet: what a week of sites has sent, flow by flow.
//!
//! A site is named by two files, its event lines and what the replay printed for them. Only a site
//! whose output follows from its events is in the sums.

use crate::limits::{FLOWS, REPLAY_INPUT};
use crate::replay::replayed;
use crate::scheduler::Departure;
use std::ffi::{OsStr, OsString};
use std::fmt;
use std::fs::File;
use std::io::{self, Read};
use std::os::unix::ffi::OsStrExt;

/// The most sites that one sheet takes.
pub const SITES: usize = 64;

/// A name longer than this names no file, and neither does one that is no UTF-8.
const LONGEST_NAME: usize = 4_095;

/// A line shows at most so many bytes of a name.
const SHOWN_NAME: usize = 4_096;

const HOW: &str = "name EVENTS OUTPUT for each site, 1 to 64 sites";

/// What is printed for these names, a pair for each site: a sheet, or the line of a refusal.
pub fn sheet(names: &[OsString]) -> Vec<u8> {
    if let Some(why) = refusal(names.len()) {
        return format!("sheet: {why}; {HOW}\n").into_bytes();
    }
    let mut sheet = Sheet::default();
    for pair in names.chunks(2) {
        sheet.take_site(&pair[0], &pair[1]);
    }
    sheet.text()
}

/// Why so many names are refused, if they are.
fn refusal(names: usize) -> Option<String> {
    let sites = names / 2;
    if names == 0 {
        Some("no files named".to_string())
    } else if names % 2 == 1 {
        Some(format!("an odd number of names, {names}"))
    } else if sites > SITES {
        Some(format!("{sites} sites named, {SITES} at most"))
    } else {
        None
    }
}

/// What was sent, by one flow or by all of them.
#[derive(Clone, Copy, Default)]
struct Share {
    packets: i64,
    bytes: i64,
    largest: i64,
}

impl Share {
    fn add(&mut self, size: i64) {
        self.packets += 1;
        self.bytes += size;
        self.largest = self.largest.max(size);
    }
}

impl fmt::Display for Share {
    fn fmt(&self, line: &mut fmt::Formatter) -> fmt::Result {
        let Share {
            packets,
            bytes,
            largest,
        } = self;
        write!(line, "packets={packets} bytes={bytes} largest={largest}")
    }
}

/// What a site's files say.
enum Site {
    Follows {
        departures: Vec<Departure>,
        bad: Option<usize>,
    },
    Differs {
        line: usize,
    },
    EventsUnread,
    OutputUnread,
}

#[derive(Default)]
struct Sheet {
    flows: [Share; FLOWS as usize],
    all: Share,
    named: usize,
    summed: usize,
    /// The lines of single sites.
    remarks: Vec<u8>,
}

impl Sheet {
    fn take_site(&mut self, events: &OsStr, output: &OsStr) {
        self.named += 1;
        match site(events, output) {
            Site::Follows { departures, bad } => {
                self.summed += 1;
                for departure in departures {
                    self.flows[departure.flow as usize].add(departure.size);
                    self.all.add(departure.size);
                }
                if let Some(line) = bad {
                    self.remark(format_args!("summed=yes bad={line}"), output);
                }
            }
            Site::Differs { line } => self.remark(format_args!("summed=no differs={line}"), output),
            Site::EventsUnread => self.remark(format_args!("summed=no unread=events"), output),
            Site::OutputUnread => self.remark(format_args!("summed=no unread=output"), output),
        }
    }

    fn remark(&mut self, what: fmt::Arguments, output: &OsStr) {
        let start = format!("site={} {what} output=", self.named);
        self.remarks.extend(start.bytes());
        self.remarks.extend(shown(output));
        self.remarks.push(b'\n');
    }

    fn text(self) -> Vec<u8> {
        let mut sums = String::new();
        for (flow, share) in self.flows.iter().enumerate() {
            sums += &format!("flow={flow} {share}\n");
        }
        sums += &format!("flows={FLOWS} {}\n", self.all);
        sums += &format!("sites={} of={}\n", self.summed, self.named);
        [sums.as_bytes(), &self.remarks].concat()
    }
}

fn site(events: &OsStr, output: &OsStr) -> Site {
    let events = match contents(events, REPLAY_INPUT + 1) {
        Ok(events) => events,
        Err(_) => return Site::EventsUnread,
    };
    let replayed = replayed(&events);
    let expected = replayed.output.as_bytes();
    // One byte past its end is enough to see that an output goes on.
    let found = match contents(output, expected.len() + 1) {
        Ok(found) => found,
        Err(_) => return Site::OutputUnread,
    };
    if found == expected {
        Site::Follows {
            departures: replayed.departures,
            bad: replayed.bad,
        }
    } else {
        Site::Differs {
            line: first_different_line(&found, expected),
        }
    }
}

/// The first bytes of a file, as many as are wanted.
fn contents(name: &OsStr, wanted: usize) -> io::Result<Vec<u8>> {
    if name.is_empty() || name.len() > LONGEST_NAME || name.to_str().is_none() {
        return Err(io::Error::new(io::ErrorKind::NotFound, "names no file"));
    }
    let mut bytes = Vec::new();
    File::open(name)?
        .take(wanted as u64)
        .read_to_end(&mut bytes)?;
    Ok(bytes)
}

/// One more than the line feeds in the longest common beginning.
pub fn first_different_line(one: &[u8], other: &[u8]) -> usize {
    let both = one.iter().zip(other);
    let common = both.take_while(|(one, other)| one == other);
    1 + common.filter(|(&byte, _)| byte == b'\n').count()
}

/// A name as its line shows it: a control byte could be taken for the end of the line.
fn shown(name: &OsStr) -> impl Iterator<Item = u8> + '_ {
    let beginning = name.as_bytes().iter().take(SHOWN_NAME);
    beginning.map(|&byte| if byte.is_ascii_control() { b'?' } else { byte })
}
