//! Outputs that no longer follow from their events.

use super::events::lines_of;
use crate::limits::REPLAY_INPUT;
use crate::random::Random;

/// An output is at most some three times as long as its events, so none is this long.
const PAST_ANY_OUTPUT: usize = 4 * REPLAY_INPUT;

/// Takes an output of three lines or more, and gives another one.
pub type Damage = fn(Vec<u8>, &mut Random) -> Vec<u8>;

pub fn change_byte(mut output: Vec<u8>, random: &mut Random) -> Vec<u8> {
    let at = random.below(output.len());
    let by = 1 + random.below(255) as u8;
    output[at] = output[at].wrapping_add(by);
    output
}

/// As by hand: the lines stay lines.
pub fn change_digit(mut output: Vec<u8>, random: &mut Random) -> Vec<u8> {
    let digits: Vec<usize> = (0..output.len())
        .filter(|&at| output[at].is_ascii_digit())
        .collect();
    let at = random.pick(&digits);
    let by = 1 + random.below(9) as u8;
    output[at] = b'0' + (output[at] - b'0' + by) % 10;
    output
}

pub fn drop_line(output: Vec<u8>, random: &mut Random) -> Vec<u8> {
    let mut lines = lines_of(&output);
    lines.remove(random.below(lines.len()));
    lines.concat()
}

pub fn add_at_end(output: Vec<u8>, random: &mut Random) -> Vec<u8> {
    let last = last_line(&output);
    let more = random.pick(&[last, b"idle=0\n", b"\n", b"s", b"\0"]);
    [&output, more].concat()
}

pub fn add_within(output: Vec<u8>, random: &mut Random) -> Vec<u8> {
    let mut lines = lines_of(&output);
    let copied = random.pick(&lines);
    lines.insert(random.below(lines.len()), copied);
    lines.concat()
}

pub fn cut_at_line_end(output: Vec<u8>, random: &mut Random) -> Vec<u8> {
    let lines = lines_of(&output);
    let kept = 1 + random.below(lines.len() - 1);
    lines[..kept].concat()
}

pub fn cut_within_line(mut output: Vec<u8>, random: &mut Random) -> Vec<u8> {
    let within: Vec<usize> = (1..output.len())
        .filter(|&at| output[at - 1] != b'\n')
        .collect();
    output.truncate(random.pick(&within));
    output
}

pub fn drop_last_line_feed(mut output: Vec<u8>, _: &mut Random) -> Vec<u8> {
    output.pop();
    output
}

pub fn empty(_: Vec<u8>, _: &mut Random) -> Vec<u8> {
    Vec::new()
}

pub fn add_carriage_returns(output: Vec<u8>, _: &mut Random) -> Vec<u8> {
    let mut text = Vec::new();
    for byte in output {
        if byte == b'\n' {
            text.push(b'\r');
        }
        text.push(byte);
    }
    text
}

/// The last line over and over, until the output is longer than any.
pub fn go_on_and_on(mut output: Vec<u8>, random: &mut Random) -> Vec<u8> {
    let beyond = random.pick(&[4, 40_000]);
    let length = PAST_ANY_OUTPUT + random.below(beyond);
    let last = last_line(&output).to_vec();
    let missing = length - output.len();
    output.extend(last.iter().cycle().take(missing));
    output
}

pub fn go_on_from_a_wrong_start(output: Vec<u8>, random: &mut Random) -> Vec<u8> {
    let mut output = go_on_and_on(output, random);
    output[0] ^= 1;
    output
}

/// As though the input were too long.
pub fn say_too_long(_: Vec<u8>, _: &mut Random) -> Vec<u8> {
    b"bad=0\n".to_vec()
}

fn last_line(output: &[u8]) -> &[u8] {
    lines_of(output).pop().expect("an output has lines")
}
