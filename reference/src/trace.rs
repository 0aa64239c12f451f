//! Random traces of event lines, reproducible from a kind and a seed.

mod damage;
mod script;

use crate::limits::{FLOWS, REPLAY_INPUT};
use crate::random::Random;
use damage::{damage, scraps};
use script::{Script, Style};

/// A trace's name and what writes it.
type Kind = (&'static str, fn(Random) -> Vec<u8>);

pub const KINDS: [Kind; 9] = [
    ("steady", steady),
    ("bursts", bursts),
    ("onoff", onoff),
    ("extremes", extremes),
    ("refusals", refusals),
    ("damaged", damaged),
    ("long", long),
    ("mixed", mixed),
    ("scraps", scraps),
];

/// The trace of a kind and a seed, if the kind exists.
pub fn trace(kind: &str, seed: u64) -> Option<Vec<u8>> {
    let (_, write) = KINDS.iter().find(|(name, _)| *name == kind)?;
    Some(write(Random::new(seed)))
}

/// Every seed has its kind, so that consecutive seeds go through all of them.
pub fn kind_of(seed: u64) -> &'static str {
    KINDS[(seed % KINDS.len() as u64) as usize].0
}

/// Some hundreds to some thousands of lines, most traces towards the lower end.
fn length(random: &mut Random) -> usize {
    let most = random.pick(&[400, 800, 800, 1600]);
    200 + random.below(most)
}

fn steady(mut random: Random) -> Vec<u8> {
    let lines = length(&mut random);
    let mut script = Script::new(random, Style::Plain);
    script.open_some();
    script.fill();
    script.steady(lines);
    script.drain();
    script.text
}

fn bursts(mut random: Random) -> Vec<u8> {
    let lines = length(&mut random);
    let mut script = Script::new(random, Style::Plain);
    script.open_some();
    script.bursts(lines);
    script.text
}

fn onoff(mut random: Random) -> Vec<u8> {
    let lines = length(&mut random);
    let mut script = Script::new(random, Style::Plain);
    script.open_some();
    script.onoff(lines);
    script.drain();
    script.text
}

fn extremes(mut random: Random) -> Vec<u8> {
    let lines = length(&mut random);
    let mut script = Script::new(random, Style::Extreme);
    script.open_some();
    script.fill();
    script.steady(lines / 2);
    script.bursts(lines / 2);
    script.text
}

fn refusals(mut random: Random) -> Vec<u8> {
    let lines = length(&mut random);
    let mut script = Script::new(random, Style::Plain);
    script.refusals(lines);
    script.text
}

fn damaged(mut random: Random) -> Vec<u8> {
    let lines = length(&mut random) / 2;
    let mut script = Script::new(random, Style::Plain);
    script.open_some();
    script.mixed(lines);
    let Script { text, random, .. } = &mut script;
    damage(text, random);
    script.text
}

/// Around the longest input: close below it, exactly it, one byte more, and cut short.
fn long(mut random: Random) -> Vec<u8> {
    let style = random.pick(&[Style::Plain, Style::Plain, Style::Extreme]);
    let length = match random.below(6) {
        0 | 1 => REPLAY_INPUT,
        2 => REPLAY_INPUT + 1,
        3 => REPLAY_INPUT + 1 + random.below(300),
        _ => REPLAY_INPUT - random.below(300),
    };
    let cut = random.one_in(6);
    let mut script = Script::new(random, style);
    script.open_some();
    script.fill();
    script.fill_up_to(length + usize::from(cut));
    if cut {
        script.text.pop();
    }
    script.text
}

fn mixed(mut random: Random) -> Vec<u8> {
    let lines = length(&mut random);
    let style = random.pick(&[Style::Plain, Style::Plain, Style::Extreme]);
    let mut script = Script::new(random, style);
    script.open_flows(1 + (FLOWS as usize) / 4);
    script.mixed(lines);
    script.drain();
    script.text
}
