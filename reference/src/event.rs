//! The grammar of event lines.

#[derive(Clone, Copy, Debug, PartialEq, Eq)]
pub enum Event {
    Open { flow: i64, weight: i64 },
    Arrive { flow: i64, size: i64 },
    Send { count: i64 },
}

/// The lines of an input in turn; `None` for one that is no event.
pub fn events(input: &[u8]) -> impl Iterator<Item = Option<Event>> + '_ {
    input
        .split_inclusive(|&byte| byte == b'\n')
        .map(|line| line.strip_suffix(b"\n").and_then(parse))
}

fn parse(line: &[u8]) -> Option<Event> {
    if let Some(rest) = line.strip_prefix(b"flow=") {
        let (flow, weight) = two_numbers(rest, b" weight=")?;
        Some(Event::Open { flow, weight })
    } else if let Some(rest) = line.strip_prefix(b"arrive=") {
        let (flow, size) = two_numbers(rest, b" size=")?;
        Some(Event::Arrive { flow, size })
    } else {
        let count = number(line.strip_prefix(b"send=")?)?;
        Some(Event::Send { count })
    }
}

fn two_numbers(text: &[u8], between: &[u8]) -> Option<(i64, i64)> {
    let end = text.iter().position(|&byte| byte == b' ')?;
    let first = number(&text[..end])?;
    let second = number(text[end..].strip_prefix(between)?)?;
    Some((first, second))
}

/// 0 to 65,535, without sign and without leading zeros.
fn number(digits: &[u8]) -> Option<i64> {
    let well_formed = match digits {
        [b'0'] => true,
        [b'1'..=b'9', rest @ ..] => rest.len() <= 4 && rest.iter().all(u8::is_ascii_digit),
        _ => false,
    };
    if !well_formed {
        return None;
    }
    let value = digits
        .iter()
        .fold(0, |value, digit| value * 10 + i64::from(digit - b'0'));
    Some(value).filter(|&value| value <= 65_535)
}
