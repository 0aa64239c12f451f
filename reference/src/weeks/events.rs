//! Event lines of random sites: short traces, most of them, and such as a sheet could stumble over.

use crate::limits::{FLOWS, MAX_WEIGHT, QUEUE, REPLAY_INPUT};
use crate::random::Random;
use crate::trace::{trace, KINDS};

/// Lines that are no events; the last one has no end.
const BAD_LINES: [&str; 5] = [
    "\n",
    "send\n",
    "arrive=1 size=\n",
    "flow=1 weight=+1\n",
    "send=1",
];

pub fn some(random: &mut Random) -> Vec<u8> {
    match random.below(12) {
        0 => whole(random),
        1 => with_bad_line(random),
        2 => trace_of("scraps", random),
        _ => short(random),
    }
}

/// The beginning of a trace, and then a send.
pub fn short(random: &mut Random) -> Vec<u8> {
    let whole = whole(random);
    let mut lines = lines_of(&whole);
    lines.truncate(5 + random.below(100));
    let mut text = lines.concat();
    text.extend(format!("send={}\n", 1 + random.below(60)).bytes());
    text
}

/// A whole trace, of any kind that is not long.
pub fn whole(random: &mut Random) -> Vec<u8> {
    let all = KINDS.iter().map(|(kind, _)| *kind);
    let kinds: Vec<&str> = all.filter(|&kind| kind != "long").collect();
    trace_of(random.pick(&kinds), random)
}

pub fn with_bad_line(random: &mut Random) -> Vec<u8> {
    let text = short(random);
    let mut lines = lines_of(&text);
    let place = random.below(lines.len() + 1);
    lines.insert(place, random.pick(&BAD_LINES).as_bytes());
    lines.concat()
}

/// As long as an input may be.
pub fn longest(random: &mut Random) -> Vec<u8> {
    long(random, |length| length == REPLAY_INPUT)
}

/// Too long by one byte, by some, or by far.
pub fn too_long(random: &mut Random) -> Vec<u8> {
    let mut text = long(random, |length| length > REPLAY_INPUT);
    if random.one_in(4) {
        text = text.repeat(2 + random.below(4));
    }
    text
}

/// Full queues of small packets, sent at once: few bytes of events for each line of the output, so
/// that it is much longer than they are.
pub fn told_at_length(random: &mut Random) -> Vec<u8> {
    let mut text = String::new();
    for flow in 0..FLOWS {
        text += &format!("flow={flow} weight={MAX_WEIGHT}\n");
    }
    let mut filled = String::new();
    for flow in (0..FLOWS).flat_map(|flow| [flow; QUEUE as usize]) {
        filled += &format!("arrive={flow} size={}\n", random.between(1, 9));
    }
    filled += "send=256\n";
    while text.len() + filled.len() <= REPLAY_INPUT {
        text += &filled;
    }
    text.into_bytes()
}

fn long(random: &mut Random, fits: fn(usize) -> bool) -> Vec<u8> {
    loop {
        let text = trace_of("long", random);
        if fits(text.len()) {
            return text;
        }
    }
}

fn trace_of(kind: &str, random: &mut Random) -> Vec<u8> {
    let seed = random.below(1 << 32) as u64;
    trace(kind, seed).expect("the kind exists")
}

pub fn lines_of(text: &[u8]) -> Vec<&[u8]> {
    text.split_inclusive(|&byte| byte == b'\n').collect()
}
